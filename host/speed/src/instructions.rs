//! Instructions a word of a chip's core: what a counter finds over two calls less what it finds over one. The counter is a command that
//! runs the command behind it and tells its instructions on standard error, as callgrind does: `Collected : 102839`.

use crate::machines::{Chip, CALL, CHIPS};
use crate::programs::Program;
use std::process::Command;

/// The counter where the processor is an x86-64.
pub const CALLGRIND: [&str; 3] = ["valgrind", "--tool=callgrind", "--callgrind-out-file=/dev/null"];

/// Prints a line for each loop of each chip: chip, program, instructions a word.
pub fn list(counter: &[&str]) -> Result<(), String> {
    for chip in CHIPS {
        for program in chip.loops() {
            println!("{} {} {:.3}", chip.name, program.name, a_word(counter, &chip, &program)?);
        }
    }
    Ok(())
}

pub fn a_word(counter: &[&str], chip: &Chip, program: &Program) -> Result<f64, String> {
    let one = counted(counter, chip, program, "1")?;
    let two = counted(counter, chip, program, "2")?;
    match two.checked_sub(one) {
        Some(call) => Ok(call as f64 / f64::from(CALL)),
        None => Err(format!("{}, {}: {one} instructions in one call and {two} in two", chip.name, program.name)),
    }
}

/// The instructions of this program while it does nothing but so many calls.
fn counted(counter: &[&str], chip: &Chip, program: &Program, calls: &str) -> Result<u64, String> {
    let [command, options @ ..] = counter else { return Err("no counter of instructions is named".to_string()) };
    let this = std::env::current_exe().map_err(|error| format!("this program is not found: {error}"))?;
    let run = Command::new(command).args(options).arg(this).args(["count", chip.name, program.name, calls]).output();
    let output = run.map_err(|error| format!("{command}: {error}"))?;
    let told = String::from_utf8_lossy(&output.stderr);
    match told.lines().find_map(|line| line.split_once("Collected : ")?.1.trim().parse().ok()) {
        Some(count) if output.status.success() => Ok(count),
        _ => Err(format!("{}, {}: not counted by {command}, {}: {}", chip.name, program.name, output.status, told.trim_end())),
    }
}

/// So many calls of one program on a chip's core and nothing else.
pub fn count(chip: &str, program: &str, calls: &str) -> Result<(), String> {
    let chip = CHIPS.into_iter().find(|other| other.name == chip).ok_or_else(|| format!("there is no chip {chip}"))?;
    let mut programs = chip.loops().into_iter().chain(chip.alone());
    let program = programs.find(|other| other.name == program).ok_or_else(|| format!("the {} has no program {program}", chip.name))?;
    let calls: u32 = calls.parse().map_err(|_| format!("{calls} is no number of calls"))?;
    let (mut core, mut ram) = ((chip.fresh)(), program.ram.clone());
    for _ in 0..calls {
        if !core.call(&program, &mut ram) {
            return Err(format!("a word of the {} was refused", program.name));
        }
    }
    Ok(())
}
