//! Reads scripts as a stream of statements, each with its place, or the first fault. However long a script is, one line of it is held.

use crate::fault::{self, Fault, Place, Spot};
use crate::files::{first_bytes, is_standard};
use crate::images::{self, larger_chip, Image};
use crate::scripts::given;
use crate::scripts::parse::{self, NamedImage};
use crate::scripts::seen::Seen;
use crate::scripts::statement::{Action, Statement};
use crate::scripts::words::{Token, Words};
use std::fs::File;
use std::io::{self, BufRead, BufReader};
use std::path::{Path, PathBuf};

/// Scripts may include each other so deep, a script that includes itself ends here; and so many in all.
const DEEPEST: usize = 16;
const MOST: usize = 1000;

/// The longest line, in bytes.
const LONGEST: usize = 1 << 16;

const BYTE_ORDER_MARK: &[u8] = b"\xef\xbb\xbf";

/// The statements of a script and of all that it includes, or of several in order.
pub struct Reader {
    /// The scripts that are open, the innermost last.
    open: Vec<Open>,
    /// The files that come after these, the next one last.
    next: Vec<PathBuf>,
    /// One of them may be an image of the program.
    images: bool,
    seen: Seen,
    /// Every file that was read.
    files: Vec<PathBuf>,
    /// How many of them were included.
    included: usize,
    /// Bytes of all files so far.
    bytes: u64,
    failed: bool,
}

struct Open {
    file: &'static Path,
    input: Box<dyn BufRead + Send>,
    line: u64,
}

/// All statements of a text that is at hand; `file` is its name in faults, and what it includes is looked for beside it.
pub fn read_text(file: &Path, text: &[u8]) -> Result<Vec<Statement>, Fault> {
    Reader::of_input(file, Box::new(io::Cursor::new(text.to_vec()))).collect()
}

impl Reader {
    /// Several scripts for one machine, one after the other.
    pub fn of_files(paths: &[PathBuf]) -> Reader {
        Reader { next: paths.iter().rev().cloned().collect(), ..Reader::empty() }
    }

    /// The same, where a file that begins as an image does is one of the program.
    pub fn of_files_or_images(paths: &[PathBuf]) -> Reader {
        Reader { images: true, ..Reader::of_files(paths) }
    }

    pub fn of_input(file: &Path, input: Box<dyn BufRead + Send>) -> Reader {
        let mut reader = Reader::empty();
        reader.open.push(Open { file: fault::named(file), input, line: 0 });
        reader
    }

    fn empty() -> Reader {
        let (open, next, files) = (Vec::new(), Vec::new(), Vec::new());
        Reader { open, next, images: false, seen: Seen::default(), files, included: 0, bytes: 0, failed: false }
    }

    /// Sees the images that were given before the first statement.
    pub fn given(&mut self, before: &[Statement]) -> Result<(), Fault> {
        before.iter().try_for_each(|image| self.seen.see_image(image))
    }

    /// Every file that was read so far.
    pub fn files(&self) -> &[PathBuf] {
        &self.files
    }

    /// How many bytes were read so far.
    pub fn bytes(&self) -> u64 {
        self.bytes
    }

    fn opened(&mut self, path: &Path) -> Result<BufReader<File>, Fault> {
        let input = File::open(path).map_err(|error| Fault::of_file(path, "read", &error))?;
        self.files.push(path.to_path_buf());
        Ok(BufReader::with_capacity(1 << 16, input))
    }

    fn begin(&mut self, script: &Path, input: BufReader<File>) {
        self.open.push(Open { file: fault::named(script), input: Box::new(input), line: 0 });
    }

    /// Opens the next of several files; an image is one statement.
    fn open_next(&mut self, path: &Path) -> Result<Option<Statement>, Fault> {
        let mut input = self.opened(path)?;
        let first = first_bytes(&mut input).map_err(|error| Fault::of_file(path, "read", &error))?.first();
        if !self.images || first != Some(&images::FIRST) {
            self.begin(path, input);
            return Ok(None);
        }
        let image = given::statement(Image::Program, path, input)?;
        self.seen.see_image(&image)?;
        Ok(Some(image))
    }

    /// The next statement; none when every script has ended.
    fn statement(&mut self) -> Result<Option<Statement>, Fault> {
        loop {
            let Some(open) = self.open.last_mut() else {
                let Some(path) = self.next.pop() else { return Ok(None) };
                match self.open_next(&path)? {
                    Some(image) => return Ok(Some(image)),
                    None => continue,
                }
            };
            let Some(line) = open.line(&mut self.bytes)? else {
                self.open.pop();
                continue;
            };
            let mut words = Words::new(open.file, open.line, &line)?;
            let Some(first) = words.next() else { continue };
            if first.is("include") {
                let name = words.expect("the name of a script")?;
                words.end()?;
                self.seen.not_ended(first.place)?;
                self.include(&name)?;
                continue;
            }
            let action = match parse::image(&first, &mut words)? {
                Some(named) => {
                    self.seen.not_ended(first.place)?;
                    self.image(&named)?
                }
                None => parse::statement(self.seen.device(), &first, &mut words)?,
            };
            self.seen.see(&action, first.place)?;
            return Ok(Some(Statement { place: first.place, action }));
        }
    }

    fn include(&mut self, name: &Token) -> Result<(), Fault> {
        if self.open.len() > DEEPEST {
            return Err(Fault::bad_at(name.place, format!("scripts include each other more than {DEEPEST} deep")));
        }
        if self.included == MOST {
            return Err(Fault::bad_at(name.place, format!("more than {MOST} scripts are included")));
        }
        self.included += 1;
        let path = beside(name);
        let input = self.opened(&path).map_err(|fault| Fault::bad_at(name.place, fault.message))?;
        self.begin(&path, input);
        Ok(())
    }

    /// Loads the image that a statement names. What is wrong with it has the statement's place, and behind it its own.
    fn image(&mut self, NamedImage { image, patch, name }: &NamedImage) -> Result<Action, Fault> {
        if is_standard(Path::new(&name.text)) {
            return Err(name.wrong("a file"));
        }
        if let Some(said) = self.seen.larger_chip() {
            let message = format!("{:?} behind {said}: {}", name.text, larger_chip::refused(image.memory()));
            return Err(Fault::bad_at(name.place, message));
        }
        let path = beside(name);
        let filled = self.opened(&path).and_then(|input| given::filled(*image, *patch, &path, input));
        filled.map_err(|fault| Fault::bad_at(name.place, fault.to_string()))
    }
}

/// The file of a name, in the folder of the script that has it.
fn beside(name: &Token) -> PathBuf {
    name.place.file.parent().unwrap_or(Path::new("")).join(&name.text)
}

impl Iterator for Reader {
    type Item = Result<Statement, Fault>;

    /// After a fault there is nothing more.
    fn next(&mut self) -> Option<Result<Statement, Fault>> {
        if self.failed {
            return None;
        }
        let statement = self.statement();
        self.failed = statement.is_err();
        statement.transpose()
    }
}

impl Open {
    /// The next line, without its end.
    fn line(&mut self, bytes: &mut u64) -> Result<Option<String>, Fault> {
        let mut line = Vec::new();
        let read = io::Read::take(&mut self.input, LONGEST as u64 + 1).read_until(b'\n', &mut line);
        let read = read.map_err(|error| Fault::of_file(self.file, "read", &error))?;
        if read == 0 {
            return Ok(None);
        }
        *bytes += read as u64;
        self.line += 1;
        let place = |column| Place { file: self.file, spot: Spot::Line { line: self.line, column } };
        if read > LONGEST {
            return Err(Fault::bad_at(place(1), format!("a line of more than {LONGEST} bytes: expected a script")));
        }
        if self.line == 1 && line.starts_with(BYTE_ORDER_MARK) {
            line.drain(..BYTE_ORDER_MARK.len());
        }
        if self.line == 1 && line.first() == Some(&images::FIRST) {
            return Err(Fault::bad_at(place(1), "this is Intel HEX: give it with --program, --data or --preset, or name it in a script"));
        }
        while line.last().is_some_and(|byte| matches!(byte, b'\n' | b'\r')) {
            line.pop();
        }
        String::from_utf8(line).map(Some).map_err(|error| {
            let valid = error.utf8_error().valid_up_to();
            let characters = String::from_utf8_lossy(&error.as_bytes()[..valid]).chars().count();
            Fault::bad_at(place(characters + 1), "bytes that are no text: expected UTF-8")
        })
    }
}

#[cfg(test)]
mod tests {
    use super::*;
    use crate::scripts::statement::{Action, NAMES};

    fn actions(text: &str) -> Vec<Action> {
        read_text(Path::new("x"), text.as_bytes()).unwrap().into_iter().map(|statement| statement.action).collect()
    }

    fn fault(text: &str) -> String {
        read_text(Path::new("x"), text.as_bytes()).unwrap_err().to_string()
    }

    #[test]
    fn a_statement_is_read_as_it_is_written() {
        let lines = [
            "chip 77P20",
            "chip 77c25",
            "program 01FH: 0000BAH 0FFFFFFFFH",
            "patch ram 07FH: FFFFH",
            "rom 000H: 1FFFH",
            "set A 1234H",
            "set OVA1 1",
            "set DEPTH 4H",
            "run 65536",
            "read",
            "write 100H",
            "status",
            "in 8000H",
            "out",
            "interrupt",
            "reset",
            "event 5 1",
            "event 4294967295 4294967295",
            "reply 6 words 2 value 0034H",
            "reply 0",
            "sent 1000H",
            "expect PC 100H",
            "expect ram 7FH FFFFH",
            "show",
            "rate 48000",
            "sources booth \"the floor\" relay#",
            "samples 18446744073709551615",
        ];
        for line in lines {
            let read = actions(line);
            assert_eq!(read.len(), 1, "{line}");
            assert_eq!(actions(&read[0].to_string()), read, "{line}");
            assert!(NAMES.contains(&read[0].name()), "{line}");
        }
    }

    #[test]
    fn capitals_a_byte_order_mark_and_windows_line_ends_are_read() {
        assert_eq!(actions("\u{feff}RUN 5\r\nSet a 0ah\r\nEXPECT RAM 0 1\r\n").len(), 3);
        assert_eq!(actions("\u{feff}# a comment\nrun 5"), actions("run 5"));
    }

    #[test]
    fn what_was_expected_is_named() {
        assert_eq!(fault("runn 5"), "x:1:1: \"runn\": expected a statement, perhaps \"run\"");
        assert!(fault("dance").starts_with("x:1:1: \"dance\": expected a statement: chip, include, program, "));
        assert_eq!(fault("in 0x10"), "x:1:4: \"0x10\": expected a value, a number up to FFFFFFFFH (numbers are written 1234H or 4660)");
        assert_eq!(fault("set OVA 1"), "x:1:5: \"OVA\": expected the name of a register, perhaps \"OVA1\"");
        assert_eq!(fault("rate 0"), "x:1:6: \"0\": expected samples a second, at least 1");
    }

    #[test]
    fn quotes_hold_a_name_together() {
        assert_eq!(actions("sources \"a b\" c"), [Action::Sources { names: vec!["a b".to_string(), "c".to_string()] }]);
        assert_eq!(actions("sources \"a # b\"# c"), [Action::Sources { names: vec!["a # b".to_string()] }]);
        assert_eq!(fault("sources \"a b"), "x:1:9: a quote that does not end on its line: expected another");
        assert_eq!(fault("sources a\"b\""), "x:1:10: \"a\" and a quote: expected a space between");
    }

    #[test]
    fn an_address_is_given_once_unless_it_is_patched() {
        let twice = "program 0: 1 2 3\n# other\nprogram 2: 4\n";
        assert_eq!(fault(twice), "x:3:1: program 002H was given before, at x:1:1: expected each once, or `patch program`");
        assert_eq!(actions("program 0: 1 2 3\npatch program 2: 4\nrom 2: 4\nram 2: 4\n").len(), 4);
    }

    #[test]
    fn nothing_stands_after_the_number_of_samples() {
        assert_eq!(actions("samples 0\n\n# the end\n").len(), 1);
        assert_eq!(fault("samples 0\nrun 1\n"), "x:2:1: a statement: expected nothing after the `samples` at x:1:1");
        assert_eq!(fault("samples 0\nsamples 0\n"), "x:2:1: a statement: expected nothing after the `samples` at x:1:1");
    }

    #[test]
    fn a_line_without_end_is_refused() {
        let text = "run ".to_string() + &"1".repeat(LONGEST + 10);
        assert!(fault(&text).starts_with("x:1:1: a line of more than 65536 bytes"));
    }
}
