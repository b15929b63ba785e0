//! Words a second of the proved core, through the C interface with 65535 words a call, and of the emulator, on the same programs in
//! turn; the instructions that a word takes by callgrind; how many chips one core carries; what the processor could do meanwhile; how fast
//! the desk mixes and checks tracks; and how fast texts are loaded, and presets loaded and written. A measurement, and no test.

use speed::instructions::{self, CALLGRIND};
use speed::machines::{Chip, Runs, CALL, CHIPS, UPD77P20};
use speed::programs::Program;
use speed::{presets, texts, tracks, yardstick};
use std::process::exit;
use std::time::{Duration, Instant};

const ROUNDS: usize = 9;
const SLICE: Duration = Duration::from_millis(150);

/// Million words a second over one slice of time.
fn rate(machine: &mut dyn Runs, program: &Program, ram: &mut [u16]) -> f64 {
    let start = Instant::now();
    let mut calls = 0u64;
    while start.elapsed() < SLICE {
        if !machine.call(program, ram) {
            eprintln!("speed: a word of the {} was refused", program.name);
            exit(1);
        }
        calls += 1;
    }
    calls as f64 * f64::from(CALL) / start.elapsed().as_secs_f64() / 1e6
}

/// The least, the median and the most.
fn spread(mut rates: Vec<f64>) -> [f64; 3] {
    rates.sort_by(f64::total_cmp);
    [rates[0], rates[rates.len() / 2], rates[rates.len() - 1]]
}

/// The spread of the core's and of the emulator's rates, of their ratios, and of the yardstick, each round one after the other.
fn measure(chip: &Chip, program: &Program) -> [[f64; 3]; 4] {
    let (mut core, mut emulator) = ((chip.fresh)(), chip.emulator());
    let (mut core_ram, mut emulator_ram) = (program.ram.clone(), program.ram.clone());
    let (mut cores, mut emulators, mut ratios, mut yardsticks) = (Vec::new(), Vec::new(), Vec::new(), Vec::new());
    for _ in 0..ROUNDS {
        yardsticks.push(yardstick::additions());
        let proved = rate(core.as_mut(), program, &mut core_ram);
        let second = rate(&mut emulator, program, &mut emulator_ram);
        cores.push(proved);
        emulators.push(second);
        ratios.push(proved / second);
    }
    [spread(cores), spread(emulators), spread(ratios), spread(yardsticks)]
}

/// What a program falls short of: at most 90 instructions (asked of the mixing loop), 1.3 times the emulator, 30 chips.
fn missed(place: usize, ratio: f64, instructions: Option<f64>, chips: f64) -> String {
    let mut missed = Vec::new();
    if place == 0 && instructions.is_some_and(|count| count > 90.0) {
        missed.push("90 instructions");
    }
    if ratio < 1.3 {
        missed.push("1.3 times");
    }
    if chips < 30.0 {
        missed.push("30 chips");
    }
    if missed.is_empty() {
        String::new()
    } else {
        format!("  misses {}", missed.join(", "))
    }
}

/// Of the 77P20's loops it says what they miss.
fn table(chip: &Chip, programs: &[Program], loops: bool) {
    println!("{}: million words a second, median of {ROUNDS} rounds in turn, {CALL} words a call", chip.name);
    println!("additions: thousand million a second that the processor did in between");
    println!(
        "{:<14}{:>8}{:>14}{:>10}{:>8}{:>14}{:>11}{:>8}",
        "program", "core", "least, most", "emulator", "ratio", "instructions", "additions", "chips"
    );
    for (place, program) in programs.iter().enumerate() {
        let [[least, core, most], [_, emulator, _], [_, ratio, _], [_, additions, _]] = measure(chip, program);
        let counted = instructions::a_word(&CALLGRIND, chip, program).map_err(|message| eprintln!("speed: {message}")).ok();
        let printed = counted.map_or("not counted".to_string(), |count| format!("{count:.1}"));
        let chips = core * 1e6 / chip.words_a_second;
        let missed = if loops && chip.name == UPD77P20.name { missed(place, ratio, counted, chips) } else { String::new() };
        let range = format!("{least:.0}, {most:.0}");
        println!(
            "{:<14}{core:>8.1}{range:>14}{emulator:>10.1}{ratio:>8.2}{printed:>14}{additions:>11.1}{chips:>8.0}{missed}",
            program.name
        );
    }
}

/// What a table has printed, or why it could not.
fn printed(table: Result<(), String>) {
    if let Err(message) = table {
        eprintln!("speed: {message}");
        exit(1);
    }
}

fn main() {
    let arguments: Vec<String> = std::env::args().skip(1).collect();
    match arguments.iter().map(String::as_str).collect::<Vec<_>>()[..] {
        [] => {
            CHIPS.iter().for_each(|chip| table(chip, &chip.loops(), true));
            printed(tracks::table());
            printed(texts::table());
            printed(presets::table());
        }
        ["tracks"] => printed(tracks::table()),
        ["texts"] => printed(texts::table()),
        ["presets"] => printed(presets::table()),
        ["words"] => CHIPS.iter().for_each(|chip| table(chip, &chip.alone(), false)),
        ["instructions"] => printed(instructions::list(&CALLGRIND)),
        ["instructions", ref counter @ ..] => printed(instructions::list(counter)),
        ["count", chip, program, calls] => printed(instructions::count(chip, program, calls)),
        _ => {
            eprintln!("usage: speed | speed words | speed tracks | speed texts | speed presets");
            eprintln!("       speed instructions [COUNTER ..] | speed count CHIP PROGRAM CALLS");
            exit(2);
        }
    }
}
