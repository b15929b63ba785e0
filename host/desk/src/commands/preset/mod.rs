//! `desk preset`: presets in Intel HEX, written from a script, checked, shown and compared.

mod check;
mod diff;
mod file;
mod show;
mod write;

use crate::commands::help;
use crate::fault::Fault;

const NAMES: [&str; 4] = ["write", "check", "show", "diff"];

pub fn command(arguments: &[String]) -> Result<(), Fault> {
    let Some((name, rest)) = arguments.split_first() else {
        return Err(Fault::bad(format!("preset: expected one of {}: see `desk help preset`", NAMES.join(", "))));
    };
    match name.as_str() {
        "write" => write::command(rest),
        "check" => check::command(rest),
        "show" => show::command(rest),
        "diff" => diff::command(rest),
        other => Err(help::unknown(other, "command of preset", NAMES, "desk help preset")),
    }
}
