//! `desk trace`: plays a script word by word, prints what each word and each event changed, and judges as `desk run` does.

use crate::chip::device::Device;
use crate::chip::event::{Answered, Event};
use crate::chip::machine::Memory;
use crate::chip::mnemonics;
use crate::chip::traced::{give_event, run_word, Columns};
use crate::commands::arguments::{Argument, Arguments};
use crate::commands::script::{self, Statements};
use crate::fault::{Fault, Place};
use crate::output::Output;
use crate::scripts::given::Images;
use crate::scripts::player::Player;
use crate::scripts::statement::{Action, Fill};
use bemulatsho::{kind, Reply};

const USE: &str = "expected `desk trace [--from N] [--count N] [--program FILE] [--data FILE] [--preset FILE] SCRIPT`, \
                   where N is a number of words and a script of - is standard input";

const WORDS: &str = "a number of words";

pub fn command(arguments: &[String]) -> Result<(), Fault> {
    let asked = asked(arguments)?;
    let (mut chip, mut widest) = (Device::default(), 0);
    let script = script::checked(asked.script, &asked.images, |statement| match &statement.action {
        Action::Chip { device } => chip = *device,
        Action::Fill(Fill { memory: Memory::Program, values, .. }) => {
            widest = values.iter().map(|word| mnemonics::line(chip, *word).len()).fold(widest, usize::max);
        }
        _ => {}
    })?;
    let mut output = Output::new();
    let played = Trace::new(&asked, Columns::wide_enough(widest), &mut output).play(script.statements);
    let printed = output.flush();
    played.and(printed)
}

struct Asked<'a> {
    script: &'a str,
    images: Images,
    /// Words to pass over.
    from: u64,
    /// Words to print; all if none is said.
    count: Option<u64>,
}

fn asked(arguments: &[String]) -> Result<Asked<'_>, Fault> {
    let (mut script, mut from, mut count) = (None, None, None);
    let mut images = Images::default();
    let mut arguments = Arguments::new(USE, arguments);
    while let Some(argument) = arguments.next() {
        match argument {
            Argument::Option("--from") => arguments.number("--from", WORDS, &mut from)?,
            Argument::Option("--count") => arguments.number("--count", WORDS, &mut count)?,
            Argument::Option(option @ ("--program" | "--data" | "--preset")) => arguments.image(option, &mut images)?,
            Argument::Option(option) => return Err(arguments.unknown(option)),
            Argument::File(file) => arguments.script(&mut script, file)?,
        }
    }
    let script = script.ok_or_else(|| arguments.bad("no script"))?;
    Ok(Asked { script, images, from: from.unwrap_or(0), count })
}

struct Trace<'a> {
    player: Player,
    /// Words that have finished.
    words: u64,
    from: u64,
    /// Words still to be printed; without end if none was said. What comes behind them is played and judged all the same.
    left: Option<u64>,
    columns: Columns,
    output: &'a mut Output,
}

impl<'a> Trace<'a> {
    fn new(asked: &Asked, columns: Columns, output: &'a mut Output) -> Trace<'a> {
        Trace { player: Player::new(), words: 0, from: asked.from, left: asked.count, columns, output }
    }

    fn play(&mut self, statements: Statements) -> Result<(), Fault> {
        for statement in statements {
            let statement = statement?;
            self.player.settle_before(&statement.action)?;
            match statement.action {
                // A count that is not allowed is the core's to refuse, and no words run.
                Action::Event(event @ Event { kind: kind::RUN, value: 1..=0xffff }) => self.run(statement.place, event)?,
                Action::Event(event) => self.event(statement.place, event)?,
                _ => {
                    self.player.carry_out(&statement)?;
                }
            }
        }
        self.player.settle()
    }

    /// A run, word by word where they are printed: so many words and then the rest are the same as all at once.
    fn run(&mut self, place: Place, event: Event) -> Result<(), Fault> {
        let mut reply = Reply::default();
        while reply.number == 0 && u32::from(reply.words) < event.value {
            let part = match self.unseen(event.value - u32::from(reply.words)) {
                0 => self.word()?,
                words => self.player.machine.event(kind::RUN, words),
            };
            self.words += u64::from(part.words);
            reply = Reply { words: reply.words + part.words, ..part };
        }
        self.player.answered(place, Answered { device: self.player.machine.device(), event, reply });
        Ok(())
    }

    /// How many of the words that come are not printed: those before the first, and all behind the last.
    fn unseen(&self, words: u32) -> u32 {
        match self.left {
            Some(0) => words,
            _ => u32::try_from(self.from.saturating_sub(self.words)).map_or(words, |before| before.min(words)),
        }
    }

    /// Runs one word and prints it.
    fn word(&mut self) -> Result<Reply, Fault> {
        let word = run_word(&mut self.player.machine);
        let done = u64::from(word.reply.words);
        self.output.line(&self.columns.word(self.words + done, &word))?;
        self.left = self.left.map(|left| left - done);
        Ok(word.reply)
    }

    fn event(&mut self, place: Place, event: Event) -> Result<(), Fault> {
        let traced = give_event(&mut self.player.machine, event);
        self.player.answered(place, traced.answered);
        match self.shown() {
            true => self.output.line(&self.columns.event(&traced)),
            false => Ok(()),
        }
    }

    /// Whether the first word to be printed has been reached, and the last not passed.
    fn shown(&self) -> bool {
        self.words >= self.from && self.left != Some(0)
    }
}
