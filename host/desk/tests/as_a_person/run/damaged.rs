//! Damaged scripts are played without a panic.

use crate::folder::Folder;
use random::Random;

const GOOD: &str = "# every statement\n\
    chip 77P20\nrate 48000\nsources booth \"the floor\"\n\
    program 0: 624681H 0A8030H 501000H\n\
    rom 1F0H: 1FFFH 12 0\n\
    ram 7FH: ABCDH\n\
    patch ram 7FH: ABCDH\n\
    set TR 7FFFH\nset CA 1\n\
    run 3\nreply 0 words 3\n\
    in 2000H\nwrite 34H\nread\nstatus\nreply 0 value 0\n\
    interrupt\nreset\nevent 4 12\n\
    set SORQ 1\nout\nsent 0\n\
    expect A 9233H\nexpect ram 7FH ABCDH\nshow\n\
    include parts/last.desk\n\
    samples 1\n";

fn damaged(random: &mut Random) -> Vec<u8> {
    let mut text = GOOD.as_bytes().to_vec();
    for _ in 0..=random.below(4) {
        let mut lines: Vec<Vec<u8>> = text.split(|byte| *byte == b'\n').map(<[u8]>::to_vec).collect();
        let at = random.place(lines.len());
        hurt(random, &mut lines, at);
        text = lines.join(&b'\n');
    }
    text
}

/// Cuts a line, doubles it below or behind itself, or turns a bit of it.
fn hurt(random: &mut Random, lines: &mut Vec<Vec<u8>>, at: usize) {
    let line = lines[at].clone();
    match random.below(5) {
        0 => lines[at].truncate(random.place(line.len() + 1)),
        1 => lines.insert(at, line),
        2 => lines[at].extend(line),
        _ => {
            let (byte, bit) = (random.place(line.len()), random.below(8));
            lines[at].get_mut(byte).into_iter().for_each(|byte| *byte ^= 1 << bit);
        }
    }
}

#[test]
fn damaged_scripts_are_played_without_a_panic() {
    let folder = Folder::new().with("parts/last.desk", "run 1\n");
    assert_eq!(folder.desk_with_input("run --quiet -", GOOD.as_bytes()).status, 0);
    let mut random = Random::new(0x77f20);
    let mut ends = [0; 3];
    for _ in 0..70 {
        let ran = folder.desk_with_input("run -", &damaged(&mut random));
        ends[ran.status as usize] += 1;
        assert_eq!(ran.told.is_empty(), ran.status == 0, "{ran:?}");
    }
    assert!(ends.iter().all(|count| *count > 0), "{ends:?}");
}
