//! The registers by their names in the rules, for scripts and for print.

use crate::chip::device::Device;
use bemulatsho::upd77c25;

/// What either chip holds: the registers that both have, and beside them TRB, which stays 0 on the 77P20.
pub type Held = upd77c25::Registers;

/// How a register is printed.
#[derive(Clone, Copy, Debug, PartialEq, Eq)]
pub enum Width {
    /// So many hexadecimal digits and an H.
    Digits(usize),
    /// 0 or 1.
    Flag,
}

pub struct Register {
    pub name: &'static str,
    pub width: Width,
    /// The largest number that the record can hold there; whether it fits the chip is refusal 2's to say.
    pub largest: u16,
    /// The chips that have it.
    pub devices: &'static [Device],
    pub get: fn(&Held) -> u16,
    pub set: fn(&mut Held, u16),
}

const BOTH: &[Device] = &Device::ALL;

macro_rules! number {
    ($name:literal, $digits:literal, $($place:tt)+) => {
        Register {
            name: $name,
            width: Width::Digits($digits),
            largest: u16::MAX,
            devices: BOTH,
            get: |held| held.registers.$($place)+,
            set: |held, value| held.registers.$($place)+ = value,
        }
    };
}

macro_rules! flag {
    ($name:literal, $($place:tt)+) => {
        Register {
            name: $name,
            width: Width::Flag,
            largest: 1,
            devices: BOTH,
            get: |held| u16::from(held.registers.$($place)+),
            set: |held, value| held.registers.$($place)+ = value != 0,
        }
    };
}

/// In the order of the rules; the flags by the names of the conditions.
static REGISTERS: [Register; 33] = [
    number!("PC", 3, pc),
    number!("STACK0", 3, stack[0]),
    number!("STACK1", 3, stack[1]),
    number!("STACK2", 3, stack[2]),
    number!("STACK3", 3, stack[3]),
    Register {
        name: "DEPTH",
        width: Width::Digits(1),
        largest: 255,
        devices: BOTH,
        get: |held| u16::from(held.registers.depth),
        set: |held, value| held.registers.depth = value as u8,
    },
    number!("A", 4, a),
    number!("B", 4, b),
    number!("K", 4, k),
    number!("L", 4, l),
    number!("TR", 4, tr),
    Register {
        name: "TRB",
        width: Width::Digits(4),
        largest: u16::MAX,
        devices: &[Device::Upd77c25],
        get: |held| held.trb,
        set: |held, value| held.trb = value,
    },
    number!("DR", 4, dr),
    number!("SI", 4, si),
    number!("SO", 4, so),
    number!("DP", 2, dp),
    number!("RP", 3, rp),
    number!("SR", 4, sr),
    flag!("SA1", flags.a.s1),
    flag!("SA0", flags.a.s0),
    flag!("CA", flags.a.c),
    flag!("ZA", flags.a.z),
    flag!("OVA1", flags.a.ov1),
    flag!("OVA0", flags.a.ov0),
    flag!("SB1", flags.b.s1),
    flag!("SB0", flags.b.s0),
    flag!("CB", flags.b.c),
    flag!("ZB", flags.b.z),
    flag!("OVB1", flags.b.ov1),
    flag!("OVB0", flags.b.ov0),
    flag!("SIACK", siack),
    flag!("SOACK", soack),
    flag!("SORQ", sorq),
];

/// Those that a chip has.
pub fn of(device: Device) -> impl Iterator<Item = &'static Register> {
    REGISTERS.iter().filter(move |register| register.devices.contains(&device))
}

/// The register of a name, in capitals or small letters, if the chip has it.
pub fn named(device: Device, name: &str) -> Option<&'static Register> {
    of(device).find(|register| register.name.eq_ignore_ascii_case(name))
}

impl PartialEq for Register {
    fn eq(&self, other: &Register) -> bool {
        self.name == other.name
    }
}

impl std::fmt::Debug for Register {
    fn fmt(&self, f: &mut std::fmt::Formatter) -> std::fmt::Result {
        f.write_str(self.name)
    }
}

impl Register {
    /// A value of this register as it is printed.
    pub fn print(&self, value: u16) -> String {
        match self.width {
            Width::Digits(digits) => format!("{value:0digits$X}H"),
            Width::Flag => value.to_string(),
        }
    }
}

#[cfg(test)]
mod tests {
    use super::*;

    #[test]
    fn every_register_holds_what_is_set() {
        for register in of(Device::Upd77c25) {
            let mut held = Held::default();
            (register.set)(&mut held, register.largest);
            assert_eq!((register.get)(&held), register.largest, "{}", register.name);
            let others = of(Device::Upd77c25).filter(|other| other.name != register.name);
            assert!(others.into_iter().all(|other| (other.get)(&held) == 0), "{}", register.name);
            assert_eq!(named(Device::Upd77c25, register.name), Some(register));
        }
    }

    #[test]
    fn trb_is_the_one_register_more_of_the_77c25() {
        let names = |device| of(device).map(|register| register.name).collect::<Vec<&str>>();
        let mut more = names(Device::Upd77c25);
        more.retain(|name| !names(Device::Upd77p20).contains(name));
        assert_eq!((more, names(Device::Upd77p20).len()), (vec!["TRB"], 32));
        assert_eq!((named(Device::Upd77p20, "TRB"), named(Device::Upd77c25, "trb").map(|found| found.name)), (None, Some("TRB")));
    }
}
