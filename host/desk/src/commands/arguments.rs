//! The words behind a command: options begin with `-`, a lone `-` is a file, and behind `--` everything is.

use crate::fault::Fault;
use crate::files::is_standard;
use crate::numbers;
use crate::scripts::given::Images;
use std::path::{Path, PathBuf};

pub struct Arguments<'a> {
    /// How the command is used, for messages.
    usage: &'a str,
    rest: std::iter::Peekable<std::slice::Iter<'a, String>>,
    only_files: bool,
}

pub enum Argument<'a> {
    Option(&'a str),
    File(&'a str),
}

impl<'a> Arguments<'a> {
    pub fn new(usage: &'a str, arguments: &'a [String]) -> Arguments<'a> {
        Arguments { usage, rest: arguments.iter().peekable(), only_files: false }
    }

    /// What belongs to an option: the next word.
    pub fn value(&mut self, option: &str, expected: &str) -> Result<&'a str, Fault> {
        match self.rest.next_if(|word| word.as_str() == "-" || !word.starts_with('-')) {
            Some(word) => Ok(word),
            None => Err(self.bad(&format!("{option}: expected {expected}"))),
        }
    }

    /// The files behind an option, up to the next option.
    pub fn files(&mut self) -> Vec<&'a str> {
        let mut files = Vec::new();
        while let Some(word) = self.rest.next_if(|word| self.only_files || word.as_str() == "-" || !word.starts_with('-')) {
            files.push(word.as_str());
        }
        files
    }

    /// All words of a command that has no options.
    pub fn only_files(&mut self) -> Result<Vec<&'a str>, Fault> {
        let mut files = Vec::new();
        while let Some(argument) = self.next() {
            match argument {
                Argument::Option(option) => return Err(self.unknown(option)),
                Argument::File(file) => files.push(file),
            }
        }
        Ok(files)
    }

    fn is_file(&self, word: &str) -> bool {
        self.only_files || word == "-" || !word.starts_with('-')
    }

    /// Puts what belongs to an option into its place, which must be empty so far.
    pub fn once<T>(&self, place: &mut Option<T>, option: &str, value: T) -> Result<(), Fault> {
        match place.replace(value) {
            None => Ok(()),
            Some(_) => Err(self.bad(&format!("{option} a second time"))),
        }
    }

    /// Puts the one script of a command into its place.
    pub fn script(&self, place: &mut Option<&'a str>, script: &'a str) -> Result<(), Fault> {
        match place.replace(script) {
            None => Ok(()),
            Some(_) => Err(self.bad(&format!("{script:?} is a second script"))),
        }
    }

    /// Puts the file of `--program`, `--data` or `--preset` into its place.
    pub fn image(&mut self, option: &str, images: &mut Images) -> Result<(), Fault> {
        let place = match option {
            "--program" => &mut images.program,
            "--data" => &mut images.data,
            _ => &mut images.preset,
        };
        let file = self.value(option, "an Intel HEX file")?;
        if is_standard(Path::new(file)) {
            return Err(self.bad(&format!("{option} -: expected a file")));
        }
        self.once(place, option, PathBuf::from(file))
    }

    /// Puts the number behind an option into its place.
    pub fn number(&mut self, option: &str, expected: &str, place: &mut Option<u64>) -> Result<(), Fault> {
        let text = self.value(option, expected)?;
        let number = numbers::parse_long(text).ok_or_else(|| Fault::bad(format!("{option} {text:?}: expected a number, as 20 or 14H")))?;
        self.once(place, option, number)
    }

    /// Standard input can be one of the files that are read.
    pub fn standard_input_once<'b>(&self, read: impl IntoIterator<Item = &'b Path>) -> Result<(), Fault> {
        match read.into_iter().filter(|file| is_standard(file)).count() {
            0 | 1 => Ok(()),
            _ => Err(self.bad("- a second time: standard input can be read once")),
        }
    }

    pub fn unknown(&self, option: &str) -> Fault {
        self.bad(&format!("{option:?} is no option"))
    }

    pub fn bad(&self, message: &str) -> Fault {
        Fault::bad(format!("{message}: {}", self.usage))
    }
}

impl<'a> Iterator for Arguments<'a> {
    type Item = Argument<'a>;

    fn next(&mut self) -> Option<Argument<'a>> {
        let word = self.rest.next()?;
        if word == "--" && !self.only_files {
            self.only_files = true;
            return self.next();
        }
        Some(if self.is_file(word) { Argument::File(word) } else { Argument::Option(word) })
    }
}
