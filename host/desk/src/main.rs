//! `desk`: exit status 0 done, 1 a script or check failed, 2 bad use or bad input.

use desk::commands::{check_image, check_track, convert, example, help, mix, preset, run, trace, version};
use desk::fault::Fault;
use desk::output::tell;
use std::process::ExitCode;

fn main() -> ExitCode {
    let arguments: Vec<String> = match std::env::args_os().skip(1).map(|word| word.into_string()).collect() {
        Ok(arguments) => arguments,
        Err(word) => return ended(Err(Fault::bad(format!("{word:?}: an argument that is no text")))),
    };
    ended(version::library_fits().and_then(|()| command(&arguments)))
}

fn command(arguments: &[String]) -> Result<(), Fault> {
    let rest = arguments.get(1..).unwrap_or(&[]);
    let name = arguments.first().map(String::as_str).unwrap_or("");
    let asks_for_help = rest.iter().take_while(|word| *word != "--").any(|word| matches!(word.as_str(), "--help" | "-h"));
    if asks_for_help && help::is_command(name) {
        return help::command(&arguments[..1]);
    }
    match name {
        "run" => run::command(rest),
        "trace" => trace::command(rest),
        "check-track" => check_track::command(rest),
        "check-image" => check_image::command(rest),
        "mix" => mix::command(rest),
        "preset" => preset::command(rest),
        "convert" => convert::command(rest),
        "example" => example::command(rest),
        "help" | "--help" | "-h" => help::command(rest),
        "--version" | "-V" => version::command(rest),
        "" => Err(Fault::bad("no command: see `desk help`")),
        other => Err(help::no_command(other)),
    }
}

fn ended(result: Result<(), Fault>) -> ExitCode {
    match result {
        Ok(()) => ExitCode::SUCCESS,
        Err(fault) => {
            tell(&fault.to_string());
            ExitCode::from(fault.status as u8)
        }
    }
}
