//! Example E: six words from the host, a subroutine (Example F's CRUNCH here), two words back to the host.

use super::example_f::{crunch, crunched};
use super::line::{ours, printed, Line};
use super::running::{Run, HOST_READS, HOST_READS_STATUS, HOST_WRITES, RUN};
use random::Random;

const INPTLP: u16 = 0x04;
const LAST_INPUT: u16 = 0x07;
const OUTPLP: u16 = 0x0b;
const OUT2LP: u16 = 0x0d;
const END: u16 = 0x0f;

const RQM: u16 = 0x8000;

/// SR with USF1, USF0, P1 and P0 as each state shows them: waiting for inputs, outputting to the host, all done.
const INPUT: u16 = 0x0000;
const OUTPUT: u16 = 0x2001;
const DONE: u16 = 0x4002;

const PROGRAM: [Line; 16] = [
    printed(1377, 0x600007, "LDI @SR,0000H"),
    printed(1382, 0x600004, "LDI @DP,0000H"),
    printed(1387, 0x6000a2, "LDI @B,0005H"),
    printed(1391, 0x600006, "LDI @DR,0000H"),
    printed(1395, 0x4be040, "INPTLP: JRQM INPTLP"),
    printed(1398, 0x04508f, "OP MOV @MEM,DR DEC ACCB DPINC"),
    printed(1409, 0x48c040, "JNZB INPTLP"),
    printed(1411, 0x00309f, "OP MOV @MEM,DRNF DPCLR"),
    printed(1420, 0x540100, "CALL CRUNCH"),
    printed(1423, 0x640027, "LDI @SR,2001H"),
    printed(1427, 0x0010f6, "OP MOV @DR,MEM DPINC"),
    printed(1432, 0x4be0b0, "OUTPLP: JRQM OUTPLP"),
    printed(1436, 0x0000f6, "OP MOV @DR,MEM"),
    printed(1438, 0x4be0d0, "OUT2LP: JRQM OUT2LP"),
    printed(1441, 0x680047, "LDI @SR,4002H"),
    // The manual's example ends in the open; this keeps it from running on into CRUNCH.
    ours(0x5000f0, "END: JMP END"),
];

fn machine(listing: &'static str, random: &mut Random) -> Result<Run, String> {
    let mut program = PROGRAM.to_vec();
    program.extend(crunch());
    let mut run = Run::new(listing, &program)?;
    run.disturb(random);
    run.pair.registers.sr = 0x6f83;
    run.pair.ram.fill(0x5a5a);
    Ok(run)
}

/// The host sees the high byte of SR; P1 and P0 are pins.
fn status(run: &mut Run, step: &str, expected: u16) -> Result<(), String> {
    let status = run.event(step, HOST_READS_STATUS, 0)?;
    run.same(step, "status", expected / 0x100, status)?;
    run.same(step, "SR", expected, run.pair.registers.sr)
}

/// The low byte, then the high byte.
fn host_writes(run: &mut Run, step: &str, word: u16) -> Result<(), String> {
    status(run, step, RQM + INPUT)?;
    let [low, high] = word.to_le_bytes();
    run.event(step, HOST_WRITES, low.into())?;
    run.event(step, HOST_WRITES, high.into())?;
    status(run, step, INPUT)
}

/// The low byte, then the high byte.
fn host_reads(run: &mut Run, step: &str) -> Result<u16, String> {
    status(run, step, RQM + OUTPUT)?;
    let low = run.event(step, HOST_READS, 0)?;
    let high = run.event(step, HOST_READS, 0)?;
    status(run, step, OUTPUT)?;
    Ok((high << 8) | low)
}

/// Both words of the result to the host.
fn result_to_host(run: &mut Run, expected: u32) -> Result<(), String> {
    run.waits_at("first word of the result", OUTPLP)?;
    let low = host_reads(run, "first word of the result")?;
    run.until("second word of the result", OUT2LP)?;
    run.waits_at("second word of the result", OUT2LP)?;
    let high = host_reads(run, "second word of the result")?;
    run.until("the end", END)?;
    run.waits_at("the end", END)?;
    run.same("the end", "result", expected, u32::from(high) * 0x10000 + u32::from(low))?;
    status(run, "the end", DONE)
}

/// As published nothing waits for the sixth word: after the fifth, JNZB falls through and DRNF takes the fifth again.
pub fn free_run() -> Result<String, String> {
    let mut run = machine("Example E, running freely", &mut Random::new(0xee))?;
    let words = [0x5678, 0x1234, 0x1111, 0x2222, 0x0001];
    for (number, word) in words.into_iter().enumerate() {
        let step = format!("word {number} from the host");
        run.event(&step, RUN, 100)?;
        run.same(&step, "PC", INPTLP, run.pair.registers.pc)?;
        host_writes(&mut run, &step, word)?;
    }
    let fifth_twice = [0x5678, 0x1234, 0x1111, 0x2222, 0x0001, 0x0001];
    run.event("after the fifth word", RUN, 100)?;
    run.same("after the fifth word", "PC", OUTPLP, run.pair.registers.pc)?;
    run.same_ram("after the fifth word", 0, &fifth_twice)?;
    result_to_host(&mut run, crunched(fifth_twice))?;
    Ok("Example E, parallel I/O, running freely: the manual's loop does not wait for the sixth word and takes the fifth twice".to_string())
}

/// The sixth word comes in time if the host writes it before the word at 7 runs.
pub fn stopped_for_the_sixth_word() -> Result<String, String> {
    let mut random = Random::new(0xe);
    // Twice 12345678H, plus 22221111H, less 0FFF0001H.
    six_words(&mut random, [0x5678, 0x1234, 0x1111, 0x2222, 0x0001, 0x0fff], 0x368b_be00)?;
    for _ in 0..50 {
        let words = [(); 6].map(|()| random.word());
        six_words(&mut random, words, crunched(words))?;
    }
    Ok("Example E, parallel I/O, stopped for the sixth word: 51 times six words in and the 32-bit result out".to_string())
}

fn six_words(random: &mut Random, words: [u16; 6], expected: u32) -> Result<(), String> {
    let mut run = machine("Example E, stopped for the sixth word", random)?;
    let count = run.until("before the first word", INPTLP)?;
    run.same_words("before the first word", 4, count)?;
    for (number, word) in words[..5].iter().enumerate() {
        let step = format!("word {number} from the host");
        run.waits_at(&step, INPTLP)?;
        host_writes(&mut run, &step, *word)?;
        let next = if number < 4 { INPTLP } else { LAST_INPUT };
        run.event(&step, RUN, 3)?;
        run.same(&step, "PC three words later", next, run.pair.registers.pc)?;
    }
    host_writes(&mut run, "the sixth word", words[5])?;
    run.event("the sixth word", RUN, 1)?;
    status(&mut run, "the sixth word, RQM not set", INPUT)?;
    let count = run.until("the sixth word", OUTPLP)?;
    run.same_words("the sixth word, from CALL to OUTPLP", 1 + 10 + 2, count)?;
    run.same_ram("the sixth word", 0, &words)?;
    run.same_ram("past the result", 8, &[0x5a5a; 120])?;
    result_to_host(&mut run, expected)
}
