//! Assembles a line as the manual prints it, so that no word of a table goes unchecked. Codes and fields are those of 01.

use super::line::Line;

const SOURCES: [&str; 16] = ["NON", "A", "B", "TR", "DP", "RP", "RO", "SGN", "DR", "DRNF", "SR", "SIM", "SIL", "K", "L", "MEM"];

/// The second @NON, code 14, has no name of its own.
const DESTINATIONS: [&str; 16] =
    ["@NON", "@A", "@B", "@TR", "@DP", "@RP", "@DR", "@SR", "@SOL", "@SOM", "@K", "@KLR", "@KLM", "@L", "", "@MEM"];

const OPERATIONS: [&str; 16] =
    ["NOP", "OR", "AND", "XOR", "SUB", "ADD", "SBB", "ADC", "DEC", "INC", "CMP", "SHR1", "SHL1", "SHL2", "SHL4", "XCHG"];

const P_SELECT: [&str; 4] = ["RAM", "IDB", "M", "N"];
const ACCUMULATORS: [&str; 2] = ["ACCA", "ACCB"];
const DPL: [&str; 4] = ["DPNOP", "DPINC", "DPDEC", "DPCLR"];
const DPH_M: [&str; 8] = ["M0", "M1", "M2", "M3", "M4", "M5", "M6", "M7"];

#[rustfmt::skip] // Eight codes a line.
const CONDITIONS: [&str; 32] = [
    "JNCA", "JCA", "JNCB", "JCB", "JNZA", "JZA", "JNZB", "JZB",
    "JNOVA0", "JOVA0", "JNOVB0", "JOVB0", "JNOVA1", "JOVA1", "JNOVB1", "JOVB1",
    "JNSA0", "JSA0", "JNSB0", "JSB0", "JNSA1", "JSA1", "JNSB1", "JSB1",
    "JDPL0", "JDPLF", "JNSIAK", "JSIAK", "JNSOAK", "JSOAK", "JNRQM", "JRQM",
];

const JUMP: u32 = 0b100;
const CALL: u32 = 0b101;
const JUMP_ON_CONDITION: u32 = 0b010;

/// The word that the line at this address stands for; none if the line cannot be read.
pub fn assembled(program: &[Line], address: usize) -> Option<u32> {
    let source = program[address].source;
    let statement = source.split_once(": ").map_or(source, |(_label, statement)| statement);
    let (mnemonic, operands) = statement.split_once(' ').unwrap_or((statement, ""));
    match mnemonic {
        "OP" => op(operands),
        "LDI" => ldi(operands),
        "JMP" => Some(jp(JUMP, 0, next_address(program, address, operands)?)),
        "CALL" => Some(jp(CALL, 0, next_address(program, address, operands)?)),
        condition => Some(jp(JUMP_ON_CONDITION, code(&CONDITIONS, condition)?, next_address(program, address, operands)?)),
    }
}

/// The parts of an OP or RT word, in whatever order they stand.
fn op(parts: &str) -> Option<u32> {
    let mut word = 0;
    let mut parts = parts.split(' ').filter(|part| !part.is_empty());
    while let Some(part) = parts.next() {
        word |= match part {
            "MOV" => moved(parts.next()?)?,
            "RPDEC" => 1 << 8,
            "RET" => 0b01 << 21,
            _ => match (code(&DPL, part), code(&DPH_M, part)) {
                (Some(dpl), _) => dpl << 12,
                (_, Some(dph_m)) => dph_m << 9,
                _ => code(&OPERATIONS, part)? << 15 | operated(parts.next()?)?,
            },
        };
    }
    Some(word)
}

/// `@DST,SRC`.
fn moved(operands: &str) -> Option<u32> {
    let (destination, source) = operands.split_once(',')?;
    Some(code(&SOURCES, source)? << 4 | code(&DESTINATIONS, destination)?)
}

/// `ASL,P-select`, or ASL alone.
fn operated(operands: &str) -> Option<u32> {
    let (accumulator, operand) = operands.split_once(',').unwrap_or((operands, P_SELECT[0]));
    Some(code(&P_SELECT, operand)? << 19 | code(&ACCUMULATORS, accumulator)? << 14)
}

fn ldi(operands: &str) -> Option<u32> {
    let (destination, number) = operands.split_once(',')?;
    let number = u16::from_str_radix(number.strip_suffix('H')?, 16).ok()?;
    Some(0b11 << 21 | u32::from(number) << 5 | code(&DESTINATIONS, destination)?)
}

fn jp(branch: u32, condition: u32, next_address: u32) -> u32 {
    0b10 << 21 | branch << 18 | condition << 13 | next_address << 4
}

/// `$+2` counts from the jump's own address; a name is the address of the line that has it as its label.
fn next_address(program: &[Line], address: usize, operand: &str) -> Option<u32> {
    let place = match operand.strip_prefix("$+") {
        Some(ahead) => address + ahead.parse::<usize>().ok()?,
        None => program.iter().position(|line| line.source.split_once(": ").is_some_and(|(label, _)| label == operand))?,
    };
    u32::try_from(place).ok()
}

fn code(names: &[&str], name: &str) -> Option<u32> {
    names.iter().zip(0..).find(|(known, _)| **known == name).map(|(_, code)| code)
}
