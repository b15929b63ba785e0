//! How fast texts of Intel HEX are loaded: a whole program, and a text of 10 MB that is refused at its end; beside it the second reader, and
//! srec_cat with all that a process takes.

use std::fs;
use std::path::Path;
use std::process::{Command, Stdio};
use std::time::{Duration, Instant};

const SLICE: Duration = Duration::from_millis(300);
const LARGE: usize = 10_000_000;

/// Prints MB a second of each.
pub fn table() -> Result<(), String> {
    let file = std::env::temp_dir().join(format!("bemulatsho-speed-{}.hex", std::process::id()));
    let printed = measure(&file);
    // What was measured stands; a file that cannot be removed is no fault of it.
    let _ = fs::remove_file(&file);
    printed
}

fn measure(file: &Path) -> Result<(), String> {
    println!("\ntexts of Intel HEX, MB a second (seconds a text)");
    println!("{:<34}{:>20}{:>20}{:>20}", "text", "core", "second reader", "srec_cat, a process");
    for (what, text, number) in [("a program of 128 records", whole(), 0), ("10 MB, refused at its end", large(), 16)] {
        let mut image = [0u32; bemulatsho::WORDS];
        let core = seconds(|| bemulatsho::load_program(&text, &mut image).number == number);
        let second = seconds(|| text::load_program(&text, &mut image).number == number);
        fs::write(file, &text).map_err(|error| format!("{}: {error}", file.display()))?;
        let srec_cat = seconds(|| read_by_srec_cat(file));
        let rates = [core, second, srec_cat].map(|seconds| rate(text.len(), seconds));
        println!("{what:<34}{:>20}{:>20}{:>20}", rates[0], rates[1], rates[2]);
    }
    Ok(())
}

/// Seconds of one call, or none where it does not answer as it should.
pub fn seconds(mut call: impl FnMut() -> bool) -> Option<f64> {
    let start = Instant::now();
    let mut calls = 0u32;
    while calls == 0 || start.elapsed() < SLICE {
        if !call() {
            return None;
        }
        calls += 1;
    }
    Some(start.elapsed().as_secs_f64() / f64::from(calls))
}

fn rate(bytes: usize, seconds: Option<f64>) -> String {
    seconds.map_or("none".to_string(), |seconds| format!("{:.1} ({seconds:.6})", bytes as f64 / 1e6 / seconds))
}

/// srec_cat only warns of a text without an end record.
fn read_by_srec_cat(file: &Path) -> bool {
    let run = Command::new("srec_cat").arg(file).args(["-intel", "-o", "/dev/null", "-binary"]).stderr(Stdio::null()).status();
    run.is_ok_and(|status| status.success())
}

/// The data records of a program: sixteen bytes each.
fn records() -> String {
    let mut text = String::new();
    for address in (0..4 * bemulatsho::WORDS).step_by(16) {
        let data: Vec<usize> = (0..16).map(|place| (address * 7 + place * 13) % 256).collect();
        let sum = 16 + address / 256 + address % 256 + data.iter().sum::<usize>();
        let data: String = data.iter().map(|byte| format!("{byte:02X}")).collect();
        text.push_str(&format!(":10{address:04X}00{data}{:02X}\n", sum.wrapping_neg() & 255));
    }
    text
}

fn whole() -> Vec<u8> {
    (records() + ":00000001FF\n").into_bytes()
}

/// A whole program, records without data up to the size, and no end record.
fn large() -> Vec<u8> {
    let mut text = records().into_bytes();
    while text.len() < LARGE {
        text.extend_from_slice(b":0000000000\n");
    }
    text
}
