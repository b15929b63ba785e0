//! Twelve tracks of three sources, a few seconds each: samples come in by event 4 and go out by event 5. The core, the emulator and
//! exact arithmetic: what is sent is never above the exact sum, held within 16 bits, and by at most 32767/32768 below it for each source.

use crate::pair::Pair;
use emulator::Chip;

const TRACKS: usize = 12;
const RATE: usize = 8000;
const SECONDS: usize = 3;

/// For each source: wait for its sample, take it into K and its gain from RAM into L, add M. Then send A, or SGN where OV1 is 1.
const PROGRAM: [u32; 17] = [
    0x09b010, // OP  MOV @NON,A   XOR ACCA,IDB  DPCLR : A is 0, and OV1 too
    0x4b4010, // JNSIAK $
    0x0000ba, // OP  MOV @K,SIM
    0x0010fd, // OP  MOV @L,MEM   DPINC
    0x128000, // OP  ADD ACCA,M
    0x4b4050, // JNSIAK $
    0x0000ba, // OP  MOV @K,SIM
    0x0010fd, // OP  MOV @L,MEM   DPINC
    0x128000, // OP  ADD ACCA,M
    0x4b4090, // JNSIAK $
    0x0000ba, // OP  MOV @K,SIM
    0x0010fd, // OP  MOV @L,MEM   DPINC
    0x128000, // OP  ADD ACCA,M
    0x4980f0, // JNOVA1 $+2
    0x000071, // OP  MOV @A,SGN
    0x000019, // OP  MOV @SOM,A
    0x500000, // JMP 0
];

/// More words than lie between two waits.
const BETWEEN_WAITS: u32 = 12;

/// Booth, floor and relay: three tones, the first two at full scale.
fn sample(source: usize, at: usize) -> i16 {
    let (hertz, level) = [(440.0, 32767.0), (1000.0, 32767.0), (2600.0, 12000.0)][source];
    let phase = std::f64::consts::TAU * hertz * at as f64 / RATE as f64;
    (level * phase.sin()).round() as i16
}

/// The gains of a track: each track has the sources at other levels; on some the sum leaves the range.
fn gains(track: usize) -> [i16; 3] {
    let level = |part: usize| (32767 - (track * part * 2711) % 45000) as i16;
    [level(1), level(2), level(3)]
}

/// The sum in 32768ths, held.
fn exact(samples: [i16; 3], gains: [i16; 3]) -> i64 {
    let sum: i64 = samples.iter().zip(gains).map(|(x, gain)| i64::from(*x) * i64::from(gain)).sum();
    sum.clamp(-32768 * 32768, 32767 * 32768)
}

/// One sample of one track; what was sent.
fn sent(pair: &mut Pair, samples: [i16; 3]) -> Result<i16, String> {
    let mut event = |kind: u32, value: u32| pair.event(kind, value).map_err(|difference| difference.smallest().to_string());
    for sample in samples {
        event(4, u32::from(sample as u16))?;
        event(0, BETWEEN_WAITS)?;
    }
    let reply = event(5, 0)?;
    if reply.number != 0 {
        return Err(format!("nothing was sent: refusal {}", reply.number));
    }
    Ok(reply.value as i16)
}

/// How many samples were compared, and how many of them were clipped.
pub fn compare() -> Result<(u64, u64), String> {
    let (mut compared, mut clipped) = (0, 0);
    for track in 0..TRACKS {
        let gains = gains(track);
        let mut pair = Pair::new(Chip::Upd77p20, &PROGRAM);
        for (cell, gain) in pair.ram.iter_mut().zip(gains) {
            *cell = gain as u16;
        }
        for at in 0..RATE * SECONDS {
            let samples = [sample(0, at), sample(1, at), sample(2, at)];
            let sent = sent(&mut pair, samples).map_err(|fault| format!("track {track}, sample {at}: {fault}"))?;
            let above = exact(samples, gains) - i64::from(sent) * 32768;
            if !(0..=3 * 32767).contains(&above) {
                return Err(format!("track {track}, sample {at}: {sent} was sent, and the exact sum is {above}/32768 above it"));
            }
            compared += 1;
            clipped += u64::from(sent == i16::MAX || sent == i16::MIN);
        }
    }
    Ok((compared, clipped))
}
