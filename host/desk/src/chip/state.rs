//! What events change of a machine, as a person reads it: registers, flags and RAM, with a `*` after whatever differs from the last
//! time, or only what differs.

use crate::chip::device::Device;
use crate::chip::machine::Machine;
use crate::chip::ram::{self, mark, Ram};
use crate::chip::registers::{self, named, Held, Register};
use crate::numbers;

/// The rows in which the registers are shown, as far as the chip has them: numbers first, then A's flags, B's flags and the marks.
const NUMBERS: [&[&str]; 3] =
    [&["PC", "STACK0", "STACK1", "STACK2", "STACK3", "DEPTH"], &["A", "B", "K", "L", "TR", "TRB", "DR"], &["SI", "SO", "DP", "RP", "SR"]];
const FLAGS: [&[&str]; 3] =
    [&["SA1", "SA0", "CA", "ZA", "OVA1", "OVA0"], &["SB1", "SB0", "CB", "ZB", "OVB1", "OVB0"], &["SIACK", "SOACK", "SORQ"]];

/// The named bits of SR, from the top.
const SR_BITS: [(&str, u32); 11] = [
    ("RQM", 15),
    ("USF1", 14),
    ("USF0", 13),
    ("DRS", 12),
    ("DMA", 11),
    ("DRC", 10),
    ("SOC", 9),
    ("SIC", 8),
    ("EI", 7),
    ("P1", 1),
    ("P0", 0),
];

#[derive(Clone, Copy, Debug, PartialEq, Eq)]
pub struct State {
    pub device: Device,
    pub held: Held,
    pub ram: Ram,
}

impl State {
    pub fn of(machine: &Machine) -> State {
        State { device: machine.device(), held: machine.held, ram: machine.ram }
    }

    fn cells(&self) -> &[u16] {
        self.ram.of(self.device)
    }

    /// The registers and RAM cells that are not as they are here, with the values that they have later.
    pub fn changes(&self, later: &State) -> String {
        let registers = registers::of(later.device).filter_map(|register| {
            let value = (register.get)(&later.held);
            (value != (register.get)(&self.held)).then(|| format!("{} {}", register.name, register.print(value)))
        });
        let cells = self.cells().iter().zip(later.cells()).enumerate().filter(|(_, (before, after))| before != after);
        let cells = cells.map(|(cell, (_, after))| format!("RAM {cell:02X}H {}", numbers::register(*after)));
        registers.chain(cells).collect::<Vec<String>>().join("  ")
    }
}

/// The state as lines of text, marked where it differs from the state at the last `show`.
pub fn show(now: &State, last: &State) -> String {
    let mut lines = Vec::new();
    lines.extend(NUMBERS.iter().map(|names| register_row(names, 13, now, last)));
    lines.extend(FLAGS.iter().map(|names| register_row(names, 0, now, last)));
    lines.push(sr_bits(now.held.registers.sr));
    lines.push(ram::header());
    let pointer = Some(usize::from(now.held.registers.dp));
    lines.extend(ram::rows(now.cells()).map(|from| ram::row(from, now.cells(), last.cells(), pointer)));
    lines.iter().map(|line| format!("{}\n", line.trim_end())).collect()
}

fn register_row(names: &[&str], width: usize, now: &State, last: &State) -> String {
    let registers = names.iter().filter_map(|name| named(now.device, name));
    registers.map(|register| format!("{:width$}", register_entry(register, now, last))).collect::<Vec<_>>().join("")
}

/// A name, its value and the mark, with a space at least to the next.
fn register_entry(register: &Register, now: &State, last: &State) -> String {
    let value = (register.get)(&now.held);
    let mark = mark(value != (register.get)(&last.held));
    format!("{} {}{mark} ", register.name, register.print(value))
}

fn sr_bits(sr: u16) -> String {
    let names: Vec<&str> = SR_BITS.iter().filter(|(_, bit)| sr >> bit & 1 == 1).map(|(name, _)| *name).collect();
    match names.is_empty() {
        true => "SR bits: none".to_string(),
        false => format!("SR bits: {}", names.join(" ")),
    }
}

#[cfg(test)]
mod tests {
    use super::*;

    fn empty(device: Device) -> State {
        State { device, held: Held::default(), ram: Ram::default() }
    }

    fn line(text: &str, start: &str) -> String {
        text.lines().find(|line| line.starts_with(start)).unwrap_or_else(|| panic!("{start}: not in\n{text}")).to_string()
    }

    #[test]
    fn every_register_is_shown_once() {
        let mut shown: Vec<&str> = NUMBERS.iter().chain(&FLAGS).flat_map(|names| names.iter().copied()).collect();
        let mut all: Vec<&str> = registers::of(Device::Upd77c25).map(|register| register.name).collect();
        shown.sort_unstable();
        all.sort_unstable();
        assert_eq!(shown, all);
    }

    #[test]
    fn an_empty_machine_has_no_mark() {
        for (device, ram_rows, with_tr, last) in [
            (Device::Upd77p20, 8, "A 0000H      B 0000H      K 0000H      L 0000H      TR 0000H     DR 0000H", "70H"),
            (Device::Upd77c25, 16, "A 0000H      B 0000H      K 0000H      L 0000H      TR 0000H     TRB 0000H    DR 0000H", "F0H"),
        ] {
            let text = show(&empty(device), &empty(device));
            assert!(!text.contains('*'), "{text}");
            assert_eq!(text.lines().count(), 3 + 3 + 1 + 1 + ram_rows);
            assert_eq!(line(&text, "PC"), "PC 000H      STACK0 000H  STACK1 000H  STACK2 000H  STACK3 000H  DEPTH 0H");
            assert_eq!(line(&text, "A "), with_tr);
            assert_eq!(line(&text, "SI "), "SI 0000H     SO 0000H     DP 00H       RP 000H      SR 0000H");
            assert_eq!(line(&text, "SA1"), "SA1 0  SA0 0  CA 0  ZA 0  OVA1 0  OVA0 0");
            assert_eq!(line(&text, "SIACK"), "SIACK 0  SOACK 0  SORQ 0");
            assert_eq!(line(&text, "SR bits"), "SR bits: none");
            assert_eq!(line(&text, "00H"), format!("00H[0000 ]{}", ["0000"; 15].join("  ")));
            assert_eq!(text.lines().last(), Some(format!("{last} {}", ["0000"; 16].join("  ")).as_str()));
        }
    }

    #[test]
    fn what_changed_is_marked_wherever_it_stands() {
        for device in Device::ALL {
            for register in registers::of(device) {
                let mut now = empty(device);
                (register.set)(&mut now.held, 1);
                let text = show(&now, &empty(device));
                assert_eq!(text.matches('*').count(), 1, "{}\n{text}", register.name);
                assert!(text.contains(&format!("{} {}*", register.name, register.print(1))), "{text}");
                assert_eq!(show(&now, &now).matches('*').count(), 0);
            }
            for cell in 0..device.ram() {
                let mut now = empty(device);
                now.ram.of_mut(device)[cell] = 0xabcd;
                let text = show(&now, &empty(device));
                assert_eq!(text.matches('*').count(), 1, "{text}");
                let row = line(&text, &format!("{:X}0H", cell / 16));
                assert_eq!(row.find("ABCD*"), Some(4 + 6 * (cell % 16)), "{row}");
            }
        }
    }

    #[test]
    fn a_cell_back_at_zero_is_marked_too() {
        let device = Device::Upd77p20;
        let mut last = empty(device);
        last.ram.of_mut(device)[0x25] = 5;
        let row = line(&show(&empty(device), &last), "20H");
        assert_eq!(row.find('*'), Some(4 + 6 * 5 + 4), "{row}");
    }

    #[test]
    fn brackets_stand_around_the_cell_of_dp() {
        for (device, cell) in Device::ALL.into_iter().flat_map(|device| (0..device.ram()).map(move |cell| (device, cell))) {
            let mut now = empty(device);
            now.held.registers.dp = cell as u16;
            now.ram.of_mut(device)[cell] = 0x1234;
            let text = show(&now, &now);
            assert_eq!((text.matches('[').count(), text.matches(']').count()), (1, 1), "{text}");
            assert!(text.contains("[1234 ]"), "{text}");
            assert!(show(&now, &empty(device)).contains("[1234*]"));
        }
    }

    #[test]
    fn a_pointer_outside_the_ram_marks_no_cell() {
        for (device, outside) in [(Device::Upd77p20, 0x80), (Device::Upd77p20, u16::MAX), (Device::Upd77c25, 0x100)] {
            let mut now = empty(device);
            now.held.registers.dp = outside;
            let text = show(&now, &now);
            assert!(!text.contains(['[', ']']), "{text}");
            assert!(text.contains(&format!("DP {outside:X}H")), "{text}");
        }
    }

    #[test]
    fn bits_of_sr_go_by_their_names() {
        assert_eq!(sr_bits(0x8081), "SR bits: RQM EI P0");
        assert_eq!(sr_bits(0xffff), "SR bits: RQM USF1 USF0 DRS DMA DRC SOC SIC EI P1 P0");
        assert_eq!(sr_bits(0x007c), "SR bits: none");
    }
}
