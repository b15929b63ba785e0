//! `desk run`: plays a script on one machine, prints each reply and holds every expectation against what is found.

use crate::chip::event::Answered;
use crate::chip::state::{show, State};
use crate::commands::arguments::{Argument, Arguments};
use crate::commands::script::{self, Statements};
use crate::fault::{Fault, Place, Spot};
use crate::output::Output;
use crate::scripts::given::Images;
use crate::scripts::player::{Played, Player};
use crate::scripts::statement::Action;
use bemulatsho::Reply;

const USE: &str = "expected `desk run [--quiet | --json] [--program FILE] [--data FILE] [--preset FILE] SCRIPT`, \
                   where a script of - is standard input";

#[derive(Clone, Copy, Debug, PartialEq, Eq)]
enum Print {
    Lines,
    Nothing,
    Json,
}

pub fn command(arguments: &[String]) -> Result<(), Fault> {
    let Asked { script, images, print } = asked(arguments)?;
    let statements = script::checked(script, &images, |_| {})?.statements;
    let mut output = Output::new();
    let played = play(statements, print, &mut output);
    let printed = output.flush();
    played.and(printed)
}

struct Asked<'a> {
    script: &'a str,
    images: Images,
    print: Print,
}

fn asked(arguments: &[String]) -> Result<Asked<'_>, Fault> {
    let (mut script, mut quiet, mut json) = (None, false, false);
    let mut images = Images::default();
    let mut arguments = Arguments::new(USE, arguments);
    while let Some(argument) = arguments.next() {
        match argument {
            Argument::Option("--quiet") => quiet = true,
            Argument::Option("--json") => json = true,
            Argument::Option(option @ ("--program" | "--data" | "--preset")) => arguments.image(option, &mut images)?,
            Argument::Option(option) => return Err(arguments.unknown(option)),
            Argument::File(file) => arguments.script(&mut script, file)?,
        }
    }
    let print = match (quiet, json) {
        (true, true) => return Err(arguments.bad("--quiet and --json together")),
        (true, false) => Print::Nothing,
        (false, true) => Print::Json,
        (false, false) => Print::Lines,
    };
    Ok(Asked { script: script.ok_or_else(|| arguments.bad("no script"))?, images, print })
}

fn play(statements: Statements, print: Print, output: &mut Output) -> Result<(), Fault> {
    let mut player = Player::new();
    let mut shown = State::of(&player.machine);
    for statement in statements {
        let statement = statement?;
        if let Played::Answered(answered) = player.play(&statement)? {
            match print {
                Print::Lines => output.line(&answered.to_string())?,
                Print::Json => output.line(&json(&answered, statement.place))?,
                Print::Nothing => {}
            }
        }
        match statement.action {
            Action::Chip { .. } => shown = State::of(&player.machine),
            Action::Show if print == Print::Lines => {
                let now = State::of(&player.machine);
                output.print(&show(&now, &shown))?;
                shown = now;
            }
            _ => {}
        }
    }
    player.settle()
}

fn json(answered: &Answered, place: Place) -> String {
    let Reply { number, words, value } = answered.reply;
    let at = match place.spot {
        Spot::Line { line, .. } | Spot::WholeLine(line) => format!("\"line\":{line},"),
        Spot::Statement(number) => format!("\"statement\":{number},"),
        Spot::WholeFile => String::new(),
    };
    format!(
        "{{\"file\":{},{at}\"event\":{},\"kind\":{},\"given\":{},\
         \"number\":{number},\"meaning\":{},\"words\":{words},\"value\":{value}}}",
        quoted(&place.file.display().to_string()),
        quoted(&answered.event.name().map_or_else(|| format!("event {}", answered.event.kind), str::to_string)),
        answered.event.kind,
        answered.event.value,
        quoted(answered.meaning()),
    )
}

/// A JSON string.
fn quoted(text: &str) -> String {
    let mut quoted = String::from('"');
    for character in text.chars() {
        match character {
            '"' | '\\' => quoted.extend(['\\', character]),
            control if control < ' ' => quoted.push_str(&format!("\\u{:04x}", u32::from(control))),
            other => quoted.push(other),
        }
    }
    quoted.push('"');
    quoted
}

#[cfg(test)]
mod tests {
    use super::*;

    #[test]
    fn strings_are_escaped() {
        assert_eq!(quoted("a\"b\\c\n\u{1}é"), "\"a\\\"b\\\\c\\u000a\\u0001é\"");
    }
}
