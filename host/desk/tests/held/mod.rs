//! The memory that the program holds while it runs.

use std::fs;

/// What a process holds of its own, in kilobytes: 0 until it has become the program, none when it has ended. Memory that can be both written and run is
/// left out: it is code that an emulator of the processor has translated.
pub fn held(process: u32) -> Option<u64> {
    let command = fs::read(format!("/proc/{process}/cmdline")).ok()?;
    if !command.split(|byte| *byte == 0).any(|word| word == env!("CARGO_BIN_EXE_desk").as_bytes()) {
        return if command.is_empty() { None } else { Some(0) };
    }
    let (mut sum, mut counts) = (0, false);
    for line in fs::read_to_string(format!("/proc/{process}/smaps")).ok()?.lines() {
        let mut words = line.split_whitespace();
        match (words.next(), words.next()) {
            (Some("Rss:"), Some(kilobytes)) if counts => sum += kilobytes.parse::<u64>().ok()?,
            // The head of a mapping: its addresses, and what may be done there.
            (Some(addresses), Some(rights)) if addresses.contains('-') => counts = !rights.starts_with("rwx"),
            _ => {}
        }
    }
    (sum > 0).then_some(sum)
}
