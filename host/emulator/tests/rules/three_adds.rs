//! Adding M to A: what three adds keep, what a fourth loses, and the one product that M can't hold.

use crate::assemble::{alu, dst, ldi, mov, op, psel, src, Op};
use crate::machine::{empty, Machine};
use random::Random;

fn add_m(machine: &mut Machine, k: u16, l: u16) {
    machine.run_word(ldi(k.into(), dst::K));
    machine.run_word(ldi(l.into(), dst::L));
    let reply = machine.run_word(op(Op { psel: psel::M, alu: alu::ADD, ..Op::default() }));
    assert_eq!((reply.number, reply.words), (0, 1));
}

/// -32767 times -32768 is 7FFFH times 32768, and 32767 times -32768 is 8001H times 32768.
#[test]
fn the_limit_of_three_is_sharp() {
    let mut machine = empty();
    machine.registers.a = 0x7fff;
    for _ in 0..3 {
        add_m(&mut machine, 0x8001, 0x8000);
    }
    assert_eq!(machine.registers.a, 0xfffc);
    assert!(machine.registers.flags_a.ov1);

    add_m(&mut machine, 0x7fff, 0x8000);
    assert_eq!(machine.registers.a, 0x7ffd);
    assert!(!machine.registers.flags_a.ov1);
    assert_eq!(4 * 32767 - 32767, 98301);
}

/// +32768 doesn't fit: M is -32768.
#[test]
fn the_squared_lowest_number_turns_negative() {
    let mut machine = empty();
    add_m(&mut machine, 0x8000, 0x8000);
    assert_eq!(machine.registers.a, 0x8000);
    assert!(machine.registers.flags_a.s0);
    assert!(machine.registers.flags_a.s1);
    assert!(!machine.registers.flags_a.ov0);
    assert!(!machine.registers.flags_a.ov1);
}

/// Demand 3, tried out: the answer is never above the exact sum, and below it by at most 32767 for each word added.
#[test]
fn up_to_three_adds_stay_within_the_allowance() {
    fn number(register: u16) -> i64 {
        (register as i16).into()
    }
    let near_the_ends = [0x8000, 0x8001, 0x7fff, 0x7ffe, 0xffff, 0, 1];
    let mut random = Random::new(3);
    let mut pick = || match random.below(3) {
        0 => random.pick(&near_the_ends),
        _ => random.word(),
    };
    for _ in 0..20_000 {
        let mut machine = empty();
        machine.registers.a = pick();
        let mut exact = number(machine.registers.a) * 32768;
        for added in 1..=3 {
            let (k, l) = (pick(), pick());
            if k == 0x8000 && l == 0x8000 {
                break;
            }
            add_m(&mut machine, k, l);
            exact += number(k) * number(l);

            let mut told = machine.clone();
            if told.registers.flags_a.ov1 {
                told.run_word(mov(dst::TR, src::SGN));
            } else {
                told.run_word(mov(dst::TR, src::A));
            }
            let held = exact.clamp(-32768 * 32768, 32767 * 32768);
            let above = held - number(told.registers.tr) * 32768;
            assert!((0..=32767 * added).contains(&above), "{above} above after {added} adds");
        }
    }
}
