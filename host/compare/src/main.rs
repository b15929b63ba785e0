//! Holds the proved core of both chips, through the desk's library, against the independent emulator, and the proved readers and writer of texts against
//! second ones. Prints what was compared; the first difference is printed with what was lent and ends it with status 1.

#[macro_use]
mod listed;

mod arithmetic;
mod chip_values;
mod chips;
mod coverage;
mod every_word;
mod listings;
mod machines;
mod mixing;
mod pair;
mod presets;
mod programs;
mod proved;
mod states;
mod texts;
mod tracks;
mod widths;

use chips::CHIPS;
use coverage::Coverage;
use emulator::Chip;
use std::io::{stderr, IsTerminal};
use std::process::exit;

const SEED: u64 = 0x7720;
const EVENTS: u64 = 2_000_000;
const TEXTS: u64 = 1_000_000;
const PRESETS: u64 = 1_000_000;

fn main() {
    let arguments: Vec<String> = std::env::args().skip(1).collect();
    let result = match arguments.iter().map(String::as_str).collect::<Vec<_>>()[..] {
        [] => everything(),
        ["machines", seed, events] => of_both(|chip| random_machines(chip, number("seed", seed), number("number of events", events))),
        ["machines", seed, events, chip] => random_machines(named(chip), number("seed", seed), number("number of events", events)),
        ["words", seed] => of_both(|chip| every_word(chip, number("seed", seed))),
        ["words", seed, chip] => every_word(named(chip), number("seed", seed)),
        ["texts", seed, texts] => random_texts(number("seed", seed), number("number of texts", texts)),
        ["presets", seed, presets] => random_presets(number("seed", seed), number("number of presets", presets)),
        _ => {
            eprintln!("usage: compare | compare machines SEED EVENTS [CHIP] | compare words SEED [CHIP]");
            eprintln!("       compare texts SEED TEXTS | compare presets SEED PRESETS");
            exit(2);
        }
    };
    if let Err(fault) = result {
        println!("compare: DIFFERENT\n{fault}");
        exit(1);
    }
}

fn number(what: &str, text: &str) -> u64 {
    text.parse().unwrap_or_else(|_| {
        eprintln!("compare: {text:?} is no {what}");
        exit(2);
    })
}

fn named(text: &str) -> Chip {
    chips::named(text).unwrap_or_else(|| {
        eprintln!("compare: {text:?} is none of {}", CHIPS.map(chips::name).join(", "));
        exit(2);
    })
}

/// One chip after the other, up to the first difference.
fn of_both(compare: impl FnMut(Chip) -> Result<(), String>) -> Result<(), String> {
    CHIPS.into_iter().try_for_each(compare)
}

fn report(compared: u64, what: &str) {
    println!("compare: {compared:>9} {what}");
}

fn everything() -> Result<(), String> {
    for (what, compared) in arithmetic::compare(SEED).map_err(|difference| difference.to_string())? {
        report(compared, what);
    }
    of_both(|chip| random_machines(chip, SEED, EVENTS))?;
    of_both(|chip| every_word(chip, SEED))?;
    for line in listings::run()? {
        println!("compare: {line}");
    }
    let (samples, clipped) = tracks::compare()?;
    report(samples, &format!("samples of twelve tracks of three sources ({clipped} clipped), within the bound of exact arithmetic"));
    report(mixing::compare()?, "words of the mixing loop, ending where other emulators of the chip end");
    random_texts(SEED, TEXTS)?;
    random_presets(SEED, PRESETS)
}

/// Random machines; a failure prints the seed of its machine and the smallest case.
fn random_machines(chip: Chip, seed: u64, events: u64) -> Result<(), String> {
    let mut coverage = Coverage::new(chip);
    let done = machines::compare(chip, seed, events, &mut coverage, progress(events, 1_000_000, "events")).map_err(|failure| {
        format!("machine of seed {}, event {}, as small as it gets:\n{}", failure.seed, failure.event, failure.difference.smallest())
    })?;
    let (name, faults) = (chips::name(chip), coverage.faults());
    if !faults.is_empty() {
        return Err(format!("of {done} events on the {name}: {}", faults.join(", ")));
    }
    let met = "every code, condition, way of a pointer, refusal, field of unused bits, kind and answer to an interrupt met";
    report(done, &format!("events on random machines of the {name} from seed {seed}, {met}"));
    Ok(())
}

/// Every word, and fields and words of any width.
fn every_word(chip: Chip, seed: u64) -> Result<(), String> {
    let (words, refused) = every_word::compare(chip, seed)?;
    let name = chips::name(chip);
    report(words, &format!("words: each of the {name} run from a random state, taken apart and built; refused were {refused}"));
    report(widths::compare(chip, seed)?, &format!("fields and words of any width of the {name}, refusals 11 and 4 among them"));
    Ok(())
}

/// Random texts; a failure prints the seed of its image and the smallest text.
fn random_texts(seed: u64, texts: u64) -> Result<(), String> {
    let (done, forms) = texts::compare(seed, texts, progress(texts, 80_000, "texts"))?;
    report(done, &format!("texts of Intel HEX from seed {seed}, whole and damaged, read as the second reader reads them; {forms}"));
    Ok(())
}

/// Random RAMs and corners; a failure prints the number and the cells of its RAM.
fn random_presets(seed: u64, presets: u64) -> Result<(), String> {
    let met = presets::compare(seed, presets, progress(presets, 100_000, "presets"))?;
    report(presets, &format!("presets from seed {seed}, written as the second writer writes them and read back: {met}"));
    Ok(())
}

/// Tells on a terminal how far a long comparison is, every so many.
fn progress(all: u64, every: u64, what: &'static str) -> impl Fn(u64) {
    let terminal = stderr().is_terminal();
    move |done| {
        if terminal && (done.is_multiple_of(every) || done >= all) {
            let end = if done >= all { "\n" } else { "" };
            eprint!("\r{done} of {all} {what}{end}");
        }
    }
}
