//! Levels in decibels against full scale, and the level of one tone in a sound.

use crate::sound::wav::Sound;
use std::f64::consts::TAU;

pub const FULL_SCALE: f64 = 32768.0;

/// A ratio of amplitudes in decibels; that of silence is minus infinity.
pub fn decibels(ratio: f64) -> f64 {
    20.0 * ratio.abs().log10()
}

/// Decibels as they are printed.
pub fn print(decibels: f64) -> String {
    // Adding 0 makes a rounded -0 a 0.
    format!("{:.1} dB", (decibels * 10.0).round() / 10.0 + 0.0)
}

/// The level of a tone: that of a sine at full scale is 0 dB.
pub fn of_tone(sound: &Sound, hertz: u32) -> f64 {
    let samples = whole_periods(sound, hertz);
    if samples.is_empty() {
        return f64::NEG_INFINITY;
    }
    let turn = TAU * f64::from(hertz) / f64::from(sound.rate);
    decibels(2.0 * goertzel(samples, turn) / samples.len() as f64 / FULL_SCALE)
}

/// The longest beginning of a sound that holds whole periods of a tone; all of it if it is shorter than one such stretch.
fn whole_periods(sound: &Sound, hertz: u32) -> &[i16] {
    let stretch = (sound.rate / greatest_divisor(sound.rate, hertz).max(1)).max(1) as usize;
    let length = sound.samples.len();
    &sound.samples[..if length < stretch { length } else { length - length % stretch }]
}

fn greatest_divisor(one: u32, other: u32) -> u32 {
    if other == 0 {
        one
    } else {
        greatest_divisor(other, one % other)
    }
}

/// The length of the sum of the samples, each turned back by `turn` more than the one before it: Goertzel's recurrence.
fn goertzel(samples: &[i16], turn: f64) -> f64 {
    let twice = 2.0 * turn.cos();
    let (mut last, mut before) = (0.0, 0.0);
    for sample in samples {
        (last, before) = (f64::from(*sample) + twice * last - before, last);
    }
    (last * last + before * before - twice * last * before).max(0.0).sqrt()
}

#[cfg(test)]
mod tests {
    use super::*;

    fn tone(hertz: u32, amplitude: f64, length: usize) -> Vec<i16> {
        (0..length).map(|at| (amplitude * (TAU * f64::from(hertz) * at as f64 / 8000.0).sin()).round() as i16).collect()
    }

    fn sound(samples: Vec<i16>) -> Sound {
        Sound { rate: 8000, samples }
    }

    #[test]
    fn a_sine_at_full_scale_is_0_decibels() {
        for hertz in [1, 100, 440, 1000, 2600, 3999] {
            let level = of_tone(&sound(tone(hertz, 32767.0, 16000)), hertz);
            assert!(level.abs() < 0.1, "{hertz} Hz: {level} dB");
        }
    }

    #[test]
    fn half_the_amplitude_is_6_decibels_less() {
        assert!((of_tone(&sound(tone(440, 16384.0, 8000)), 440) + 6.02).abs() < 0.01);
        assert!((decibels(0.5) + 6.02).abs() < 0.01);
        assert!((decibels(-0.1) + 20.0).abs() < 1e-9);
    }

    #[test]
    fn each_tone_of_a_mix_has_its_own_level() {
        let mix = tone(440, 16000.0, 8000).into_iter().zip(tone(1000, 4000.0, 8000)).map(|(booth, floor)| booth + floor).collect();
        let mix = sound(mix);
        assert!((of_tone(&mix, 440) - decibels(16000.0 / FULL_SCALE)).abs() < 0.01);
        assert!((of_tone(&mix, 1000) - decibels(4000.0 / FULL_SCALE)).abs() < 0.01);
        assert!(of_tone(&mix, 2600) < -80.0);
    }

    #[test]
    fn silence_is_minus_infinity() {
        for samples in [vec![], vec![0; 3], vec![0; 8000]] {
            assert_eq!(of_tone(&sound(samples), 440), f64::NEG_INFINITY);
        }
        assert_eq!(print(f64::NEG_INFINITY), "-inf dB");
    }

    #[test]
    fn whole_periods_are_taken_where_there_are_any() {
        assert_eq!(whole_periods(&sound(vec![0; 950]), 440).len(), 800);
        assert_eq!(whole_periods(&sound(vec![0; 150]), 440).len(), 150);
        assert_eq!(whole_periods(&sound(vec![0; 150]), 0).len(), 150);
        assert_eq!(whole_periods(&Sound { rate: 0, samples: vec![0; 5] }, 440).len(), 5);
    }

    #[test]
    fn decibels_are_printed_without_a_negative_zero() {
        assert_eq!(print(-0.01), "0.0 dB");
        assert_eq!(print(-6.02), "-6.0 dB");
    }
}
