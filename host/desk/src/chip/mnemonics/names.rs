//! The names of a word's fields. Source 0 and destination 14 are TRB on the 77C25 and nothing on the 77P20.

use crate::chip::device::Device;

const SOURCES: [&str; 16] = ["NON", "A", "B", "TR", "DP", "RP", "RO", "SGN", "DR", "DRNF", "SR", "SIM", "SIL", "K", "L", "MEM"];

const DESTINATIONS: [&str; 16] =
    ["@NON", "@A", "@B", "@TR", "@DP", "@RP", "@DR", "@SR", "@SOL", "@SOM", "@K", "@KLR", "@KLM", "@L", "@NON", "@MEM"];

const SOURCE_TRB: u8 = 0;
const DESTINATION_TRB: u8 = 14;

pub const OPERATIONS: [&str; 16] =
    ["NOP", "OR", "AND", "XOR", "SUB", "ADD", "SBB", "ADC", "DEC", "INC", "CMP", "SHR1", "SHL1", "SHL2", "SHL4", "XCHG"];

pub const P_SELECT: [&str; 4] = ["RAM", "IDB", "M", "N"];
pub const ACCUMULATORS: [&str; 2] = ["ACCA", "ACCB"];
pub const DPL: [&str; 4] = ["DPNOP", "DPINC", "DPDEC", "DPCLR"];

pub fn source(device: Device, src: u8) -> &'static str {
    match (device, src) {
        (Device::Upd77c25, SOURCE_TRB) => "TRB",
        _ => SOURCES[usize::from(src)],
    }
}

pub fn destination(device: Device, dst: u8) -> &'static str {
    match (device, dst) {
        (Device::Upd77c25, DESTINATION_TRB) => "@TRB",
        _ => DESTINATIONS[usize::from(dst)],
    }
}

/// Whether it is the destination that the 77P20's manual names @NON a second time; an assembler reads @NON as 0.
pub fn is_second_non(device: Device, dst: u8) -> bool {
    device == Device::Upd77p20 && dst == DESTINATION_TRB
}
