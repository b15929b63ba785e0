//! The compact form as a whole: what was written comes back, in few bytes, and no damage is taken for a record.

use super::compact::{Reader, Stop, Writer};
use super::crc::Crc;
use super::layout::{BLOCK_HEAD, CHECK, HEADER, LONGEST_LINE, MAGIC};
use super::{form, open, Form, Record};
use crate::chip::device::Device;
use crate::chip::event::Event;
use crate::chip::machine::Memory;
use crate::chip::registers::{self, Register};
use crate::fault::Spot;
use crate::scripts::reader::read_text;
use crate::scripts::statement::{Action, Fill};
use random::Random;
use std::io::{self, Cursor, Read};
use std::ops::Range;
use std::path::Path;

/// A number of any length, the short ones most often.
fn number(random: &mut Random) -> u32 {
    let bits = random.below(33);
    (random.next() & ((1 << bits) - 1)) as u32
}

fn event(kind: u32, value: u32) -> Action {
    Action::Event(Event { kind, value })
}

fn written(actions: &[Action], most_turns: usize) -> Vec<u8> {
    let mut writer = Writer::with_most_turns(Vec::new(), most_turns).unwrap();
    actions.iter().for_each(|action| writer.write(action).unwrap());
    writer.finish().unwrap()
}

/// What is handed out of some bytes, and how they end.
fn read(bytes: &[u8]) -> (Vec<Action>, Result<(), Stop>) {
    let mut reader = Reader::new(Path::new("x"), bytes);
    let mut actions = Vec::new();
    loop {
        match reader.next() {
            Ok(Some(statement)) => {
                actions.push(statement.action);
                assert_eq!(statement.place.spot, Spot::Statement(actions.len() as u64));
            }
            Ok(None) => return (actions, Ok(())),
            Err(stop) => {
                assert_eq!(reader.next(), Err(stop.clone()), "a stop stays");
                return (actions, Err(stop));
            }
        }
    }
}

fn message(bytes: &[u8]) -> String {
    read(bytes).1.unwrap_err().fault().to_string()
}

/// The statements of a sample: three words in, four runs, a word out.
fn sample(random: &mut Random, runs: [u32; 4]) -> [Action; 9] {
    let [first, second, third, fourth] = runs.map(|words| event(0, words));
    let mut word = || event(4, u32::from(random.word()));
    let (one, two, three) = (word(), word(), word());
    [first, one, second, two, third, three, fourth, event(5, 0), Action::Sent { word: random.word() }]
}

/// A small record of some blocks.
fn small() -> Vec<Action> {
    let mut random = Random::new(1);
    let fill = Fill { memory: Memory::Program, from: 0x1f, values: vec![1, 0xffffff], patch: false };
    let mut actions = vec![Action::Rate { hertz: 48000 }, Action::Fill(fill)];
    (0..12).for_each(|turn| actions.extend(sample(&mut random, [3, 3 + turn % 3, 300, 2])));
    actions.push(Action::Samples { count: 12 });
    actions
}

/// The places of the blocks.
fn blocks(record: &[u8]) -> Vec<Range<usize>> {
    let (mut blocks, mut at) = (Vec::new(), HEADER);
    while at < record.len() {
        let length = u32::from_le_bytes(record[at + 1..at + BLOCK_HEAD].try_into().unwrap()) as usize;
        blocks.push(at..at + BLOCK_HEAD + length + CHECK);
        at += BLOCK_HEAD + length + CHECK;
    }
    blocks
}

fn longest(record: &[u8]) -> usize {
    blocks(record).into_iter().map(|block| block.len()).max().unwrap()
}

/// How many statements the blocks before a byte have.
fn before(record: &[u8], byte: usize) -> usize {
    let whole = blocks(record).into_iter().take_while(|block| block.end <= byte).last();
    read(&record[..whole.map_or(0, |block| block.end)]).0.len()
}

/// A record of these blocks, each a tag and a payload, with checks that hold.
fn signed(blocks: &[(u8, Vec<u8>)]) -> Vec<u8> {
    let (mut record, mut crc) = (super::layout::header().to_vec(), Crc::new());
    crc.add(&record);
    for (tag, payload) in blocks {
        let block = [&[*tag], &(payload.len() as u32).to_le_bytes()[..], payload].concat();
        crc.add(&block);
        record.extend(block);
        record.extend(crc.value().to_le_bytes());
    }
    record
}

#[test]
fn every_statement_comes_back() {
    let lines = "program 01FH: 0000BAH 0FFFFFFFFH\npatch ram 07FH: FFFFH\nrom 000H: 1FFFH\nset A 1234H\nset OVA1 1\nset DEPTH 4H\n\
        run 0\nrun 65536\nread\nwrite 100H\nstatus\nin 0\nin 8000H\nin 0FFFFH\nin 10000H\nin 0FFFFFFFFH\nout\ninterrupt\nreset\n\
        event 5 1\nevent 8 0\nevent 4294967295 4294967295\nreply 6 words 2 value 0034H\nreply 0\nsent 1000H\nsent 0\nsent 0FFFFH\n\
        expect PC 100H\nexpect ram 7FH FFFFH\nshow\nrate 48000\nsources booth \"the floor\" relay# \"\" \u{e9}\n\
        samples 18446744073709551615\n";
    let actions: Vec<Action> = read_text(Path::new("x"), lines.as_bytes()).unwrap().into_iter().map(|statement| statement.action).collect();
    assert_eq!(actions.len(), 33);
    assert_eq!(read(&written(&actions, 1 << 16)), (actions.clone(), Ok(())));
    for action in actions {
        assert_eq!(read(&written(std::slice::from_ref(&action), 1)), (vec![action], Ok(())));
    }
    assert_eq!(read(&written(&[], 1)), (vec![], Ok(())));
}

fn random_action(random: &mut Random, device: Device) -> Action {
    let register = random.pick(&registers::of(device).collect::<Vec<&Register>>());
    let value = random.word() & register.largest;
    match random.below(40) {
        0 => {
            let memory = random.pick(&Memory::ALL);
            let from = random.place(memory.length(device));
            let length = 1 + random.place((memory.length(device) - from).min(20));
            let values = (0..length).map(|_| number(random).min(memory.largest())).collect();
            Action::Fill(Fill { memory, from, values, patch: true })
        }
        1 => Action::Set { register, value },
        2 => Action::Expect { register, value },
        3 => Action::ExpectRam { cell: random.place(device.ram()), value: random.word() },
        4 => Action::Show,
        5 => Action::Rate { hertz: 1 + number(random) / 2 },
        6 => Action::Sources { names: (0..=random.below(3)).map(|_| "name of # one".chars().take(random.place(14)).collect()).collect() },
        7 => {
            let mut perhaps = || random.flag().then(|| number(random));
            Action::Reply { number: 0, words: perhaps(), value: perhaps() }
        }
        8..=14 => Action::Sent { word: random.word() },
        15..=20 => event(number(random), number(random)),
        21..=30 => event(4, u32::from(random.word())),
        _ => event(random.below(8), random.below(3)),
    }
}

#[test]
fn random_statements_come_back() {
    for seed in 0..60 {
        let mut random = Random::new(seed);
        let length = random.below(3000);
        let device = random.pick(&Device::ALL);
        let chip = (device != Device::default()).then_some(Action::Chip { device });
        let mut actions: Vec<Action> = chip.into_iter().chain((0..length).map(|_| random_action(&mut random, device))).collect();
        if random.flag() {
            actions.push(Action::Samples { count: random.next() });
        }
        let most_turns = 1 + random.place(100);
        let record = written(&actions, most_turns);
        let (found, end) = read(&record);
        assert!(found == actions && end == Ok(()), "seed {seed}: {end:?}");
    }
}

#[test]
fn blocks_are_bounded_whatever_is_written() {
    let runs = vec![event(0, 1); 300_000];
    let ins = vec![event(4, 0x1234); 300_000];
    let long = vec![Action::Sources { names: vec!["n".repeat(60_000)] }; 40];
    let many: Vec<Action> = (0..30_000).flat_map(|turn| [event(0, turn), Action::Sent { word: turn as u16 }]).collect();
    for actions in [runs, ins, long, many] {
        let record = written(&actions, 1 << 16);
        assert!(longest(&record) < 263_000, "a block of {} bytes", longest(&record));
        assert!(read(&record) == (actions, Ok(())));
    }
}

#[test]
fn what_has_no_sent_takes_little_more_than_its_words() {
    let ins = vec![event(4, 0x1234); 300_000];
    assert!(written(&ins, 1 << 16).len() < 602_000);
}

/// Of three patterns the one that is used most has the shortest index, though it comes last.
#[test]
fn the_pattern_that_is_used_most_has_the_shortest_index() {
    let actions: Vec<Action> = (0..48_000).flat_map(|turn| [event(0, turn.min(2)), Action::Sent { word: 0 }]).collect();
    assert!(written(&actions, 1 << 16).len() < 2 * 48_000 + 48_000 / 8 + 200);
}

/// Ten seconds of the mixing shape at 48 kHz, with so many alternating numbers of words, taken for an hour.
fn bytes_of_an_hour(patterns: u32) -> u64 {
    let mut random = Random::new(u64::from(patterns));
    let mut writer = Writer::new(Vec::new()).unwrap();
    for _ in 0..480_000 {
        let words = 100 + random.below(patterns);
        sample(&mut random, [words, 20, 20, 250]).iter().for_each(|action| writer.write(action).unwrap());
    }
    let record = writer.finish().unwrap();
    assert!(longest(&record) < 300_000, "a block of {} bytes", longest(&record));
    360 * record.len() as u64
}

#[test]
fn an_hour_takes_less_than_a_gigabyte_and_a_half() {
    for patterns in [1, 2, 4, 30, 36] {
        let bytes = bytes_of_an_hour(patterns);
        assert!(bytes < 1_500_000_000, "{patterns} patterns: {bytes} bytes");
    }
}

#[test]
fn a_record_that_is_cut_anywhere_is_cut() {
    let record = written(&small(), 4);
    assert_eq!(read(&record), (small(), Ok(())));
    assert!(blocks(&record).len() >= 5);
    for length in 0..record.len() {
        let (actions, end) = read(&record[..length]);
        assert!(matches!(end, Err(Stop::Cut(_))), "{length} bytes: {end:?}");
        assert_eq!(actions, small()[..before(&record, length)], "{length} bytes");
    }
}

#[test]
fn where_it_was_cut_is_told() {
    let record = written(&small(), 4);
    let end = "expected its end; it was cut, or is still being written";
    let last = blocks(&record).pop().unwrap().start;
    assert_eq!(message(&record[..5]), format!("x: at byte 5: the record ends within its first bytes: {end}"));
    assert_eq!(message(&record[..last]), format!("x: at byte {last}: the record ends without an end block: {end}"));
    assert_eq!(message(&record[..last + 3]), format!("x: at byte {}: the record ends within a block: {end}", last + 3));
    assert_eq!(message(&record[..last + 9]), format!("x: at byte {}: the record ends within a block: {end}", last + 9));
}

#[test]
fn every_changed_bit_is_noticed_before_its_block_is_handed_out() {
    let record = written(&small(), 4);
    for byte in 0..record.len() {
        for bit in 0..8 {
            let mut damaged = record.clone();
            damaged[byte] ^= 1 << bit;
            let (actions, end) = read(&damaged);
            assert!(end.is_err(), "bit {bit} of byte {byte}");
            assert_eq!(actions, small()[..before(&record, byte)], "bit {bit} of byte {byte}");
        }
    }
}

#[test]
fn what_was_altered_is_told() {
    let record = written(&small(), 4);
    let changed = |byte: usize, to: u8| {
        let mut damaged = record.clone();
        damaged[byte] = to;
        message(&damaged)
    };
    assert_eq!(changed(4, b'\n'), "x: at byte 4: 89 42 4D 52 0A 0A 1A 0A: expected 89 42 4D 52 0D 0A 1A 0A, as a record begins");
    assert_eq!(message(b"\x89PNG"), "x: at byte 1: 89 50 4E 47: expected 89 42 4D 52, as a record begins");
    assert_eq!(changed(8, 2), "x: at byte 8: 02 00 00 00: expected 01 00 00 00, a record of version 1");
    assert_eq!(changed(12, b'X'), "x: at byte 12: a block of tag 58H: expected 54H or 45H");
    assert_eq!(changed(16, 0xff).replace(char::is_numeric, ""), "x: at byte : a block of  bytes: expected at most ");
    assert!(changed(20, 0xff).starts_with("x: at byte 12: a block of "));
    assert!(changed(20, 0xff).ends_with("; the record was altered"));
}

#[test]
fn blocks_that_moved_are_noticed() {
    // All turns are the same, and so are the blocks but for their checks.
    let silence: Vec<Action> = (0..40).flat_map(|_| [event(5, 0), Action::Sent { word: 0 }]).collect();
    for actions in [small(), silence] {
        let record = written(&actions, 4);
        let blocks = blocks(&record);
        let built = |places: &[usize]| {
            let chosen = places.iter().map(|place| &record[blocks[*place].clone()]);
            std::iter::once(&record[..HEADER]).chain(chosen).collect::<Vec<&[u8]>>().concat()
        };
        let all: Vec<usize> = (0..blocks.len()).collect();
        assert_eq!(built(&all), record);
        let bad = |places: &[usize], whole: usize| {
            let (found, end) = read(&built(places));
            assert!(matches!(end, Err(Stop::Bad(_))), "{places:?}: {end:?}");
            assert_eq!(found, actions[..before(&record, blocks[whole].start)], "{places:?}");
        };
        for place in 0..blocks.len() - 1 {
            let mut exchanged = all.clone();
            exchanged.swap(place, place + 1);
            bad(&exchanged, place);
            bad(&[&all[..place], &all[place + 1..]].concat(), place);
            bad(&[&all[..=place], &all[place..]].concat(), place + 1);
        }
    }
}

#[test]
fn nothing_may_follow_the_end() {
    let record = written(&small(), 4);
    for more in [&b"\0"[..], b"\n", &record, &record[HEADER..]] {
        let (found, end) = read(&[&record, more].concat());
        assert!(found == small() && matches!(end, Err(Stop::Bad(_))));
    }
    let end = record.len();
    assert_eq!(message(&[&record[..], b"\n"].concat()), format!("x: at byte {end}: bytes behind the end of the record: expected nothing"));
}

/// The blocks of a record as they are signed.
fn taken_apart(record: &[u8]) -> Vec<(u8, Vec<u8>)> {
    let payload = |block: &Range<usize>| record[block.start + BLOCK_HEAD..block.end - CHECK].to_vec();
    blocks(record).iter().map(|block| (record[block.start], payload(block))).collect()
}

#[test]
fn an_end_that_counts_otherwise_is_refused() {
    let record = written(&small(), 4);
    assert_eq!(signed(&taken_apart(&record)), record);
    for place in 0..24 {
        let mut blocks = taken_apart(&record);
        blocks.last_mut().unwrap().1[place] ^= 1;
        let (found, end) = read(&signed(&blocks));
        assert!(found == small() && matches!(end, Err(Stop::Bad(_))), "{end:?}");
    }
    let mut blocks = taken_apart(&record);
    blocks.remove(0);
    assert!(matches!(read(&signed(&blocks)).1, Err(Stop::Bad(_))));
}

#[test]
fn what_a_text_may_not_say_is_refused() {
    let turn = |lines: &[&str]| {
        let line = |line: &&str| [&[10, line.len() as u8], line.as_bytes()].concat();
        [&[1, lines.len() as u8][..], &lines.iter().flat_map(line).collect::<Vec<u8>>(), &[1]].concat()
    };
    let refused = |lines: &[&str]| message(&signed(&[(b'T', turn(lines))]));
    let twice = refused(&["ram 1: 2 3", "ram 2: 4"]);
    assert_eq!(twice, "x: statement 2: ram 002H was given before, at x: statement 1: expected each once, or `patch ram`");
    let ended = "x: statement 2: a statement: expected nothing after the `samples` at x: statement 1";
    assert_eq!(refused(&["samples 0", "show"]), ended);
    for plain in [&[5, 0, 1][..], &[8, 1, 0, 0], &[9, 1, 0, 0]] {
        let payload = [&[1, 2, 10, 9][..], b"samples 0", plain].concat();
        assert_eq!(message(&signed(&[(b'T', payload)])), ended);
    }
    for line in ["include x", "program x.hex", "data x.hex", "runn 5", "", "# run 5", "run 5 6", "program 0:", "show\nshow"] {
        assert!(refused(&[line]).starts_with("x: at byte 12: a block with "), "{line:?}: {}", refused(&[line]));
    }
}

#[test]
fn payloads_that_cannot_be_are_refused() {
    let none: &[&[u8]] = &[
        b"",
        &[0],
        &[0, 1],
        &[1, 0, 1],
        &[1, 1, 11, 1],
        &[1, 1, 9],
        &[1, 1, 9, 0],
        &[1, 1, 9, 1],
        &[1, 1, 9, 1, 0],
        &[1, 1, 9, 1, 0, 0, 0],
        &[1, 1, 9, 2, 0, 0],
        &[0xff, 0xff, 0xff, 0xff, 0x0f, 1, 9],
        &[1, 0xff, 0xff, 0xff, 0xff, 0x0f, 9],
        &[1, 1, 9, 0xff, 0xff, 0xff, 0xff, 0x0f],
        &[1, 1, 10, 0xff, 0xff, 0xff, 0xff, 0x0f],
        &[1, 1, 10, 1, 0xff, 1],
        &[2, 1, 9, 1, 8, 1, 2, 0, 0],
    ];
    for payload in none {
        let (found, end) = read(&signed(&[(b'T', payload.to_vec())]));
        assert!(found.is_empty() && matches!(end, Err(Stop::Bad(_))), "{payload:?}: {end:?}");
    }
    let (found, end) = read(&signed(&[(b'T', vec![1, 1, 9, 1, 0x34, 0x12])]));
    assert_eq!(found, [Action::Sent { word: 0x1234 }]);
    assert!(matches!(end, Err(Stop::Cut(_))));
}

#[test]
fn random_damage_is_refused() {
    let record = written(&small(), 4);
    let mut random = Random::new(7);
    for turn in 0..20_000 {
        let mut damaged = record.clone();
        for _ in 0..=random.below(4) {
            let place = random.place(damaged.len());
            match random.below(4) {
                0 => damaged[place] = random.word() as u8,
                1 => damaged.insert(place, random.word() as u8),
                2 => drop(damaged.drain(place..(place + random.place(30)).min(damaged.len()))),
                _ => damaged.extend_from_within(place.saturating_sub(random.place(60))..place),
            }
            if damaged.is_empty() {
                break;
            }
        }
        assert!(damaged == record || read(&damaged).1.is_err(), "turn {turn}");
    }
}

/// Payloads that are damaged under checks that hold: nothing panics, and the end sees where a statement is missing.
#[test]
fn damage_that_the_checks_do_not_see_breaks_nothing() {
    let record = written(&small(), 4);
    let mut random = Random::new(8);
    for _ in 0..20_000 {
        let mut blocks = taken_apart(&record);
        let block = random.place(blocks.len());
        let payload = &mut blocks[block].1;
        let place = random.place(payload.len());
        match random.below(3) {
            0 => payload[place] = random.word() as u8,
            1 => payload.insert(place, random.word() as u8),
            _ => drop(payload.remove(place)),
        }
        let (found, end) = read(&signed(&blocks));
        assert!(end.is_err() || found.len() == small().len());
    }
}

#[test]
fn noise_behind_a_header_is_refused() {
    let mut random = Random::new(9);
    for _ in 0..5_000 {
        let noise: Vec<u8> = (0..random.below(200)).map(|_| random.word() as u8).collect();
        assert!(read(&[&super::layout::header(), &noise[..]].concat()).1.is_err());
        let tagged = signed(&[(b'T', noise)]);
        assert!(read(&tagged).1.is_err());
    }
}

#[test]
fn a_huge_length_is_refused_at_once() {
    for length in [(1 << 20) + 1, 1 << 30, u32::MAX] {
        for tag in *b"TE" {
            let head = [&super::layout::header()[..], &[tag], &length.to_le_bytes()].concat();
            let mut reader = Reader::new(Path::new("x"), Cursor::new(head).chain(io::repeat(0)));
            assert!(matches!(reader.next(), Err(Stop::Bad(_))));
            assert_eq!(reader.bytes(), 17);
        }
    }
}

#[test]
fn an_input_that_fails_is_bad() {
    struct Failing;
    impl Read for Failing {
        fn read(&mut self, _: &mut [u8]) -> io::Result<usize> {
            Err(io::Error::other("the disk has gone"))
        }
    }
    let record = written(&small(), 4);
    for length in [0, 5, 14, 40, record.len()] {
        let mut reader = Reader::new(Path::new("x"), record[..length].chain(Failing));
        let stop = std::iter::from_fn(|| reader.next().transpose()).find_map(Result::err);
        assert_eq!(stop.unwrap().fault().to_string(), "x: cannot read: the disk has gone");
    }
}

#[test]
fn a_reader_gets_the_same_in_any_pieces() {
    /// Hands out a few bytes at a time, and is interrupted in between.
    struct Pieces<'a>(&'a [u8], u32);
    impl Read for Pieces<'_> {
        fn read(&mut self, buffer: &mut [u8]) -> io::Result<usize> {
            self.1 += 1;
            match self.1 % 3 {
                0 => Err(io::ErrorKind::Interrupted.into()),
                piece => self.0.by_ref().take(3 * u64::from(piece)).read(buffer),
            }
        }
    }
    let record = written(&small(), 4);
    let mut reader = Reader::new(Path::new("x"), Pieces(&record, 0));
    for action in small() {
        assert_eq!(reader.next().unwrap().unwrap().action, action);
    }
    assert_eq!(reader.next(), Ok(None));
    assert_eq!(reader.next(), Ok(None));
    assert_eq!(reader.bytes(), record.len() as u64);
}

#[test]
fn what_cannot_be_read_back_is_not_written() {
    let refused = |actions: &[Action]| {
        let mut writer = Writer::new(Vec::new()).unwrap();
        let (last, first) = actions.split_last().unwrap();
        first.iter().for_each(|action| writer.write(action).unwrap());
        let error = writer.write(last).unwrap_err();
        assert_eq!(error.kind(), io::ErrorKind::InvalidInput);
        assert_eq!(read(&writer.finish().unwrap()), (first.to_vec(), Ok(())));
        error.to_string()
    };
    let sources = |name: &str| Action::Sources { names: vec![name.to_string()] };
    let fill = |values: Vec<u32>| Action::Fill(Fill { memory: Memory::Ram, from: 5, values, patch: false });
    assert!(refused(&[Action::Samples { count: 0 }, Action::Show]).starts_with("the record: statement 2: a statement: expected nothing"));
    assert!(refused(&[Action::Samples { count: 0 }, event(5, 0)]).starts_with("the record: statement 2: a statement: expected nothing"));
    assert!(refused(&[fill(vec![1]), fill(vec![2])]).starts_with("the record: statement 2: ram 005H was given before, at the record:"));
    for name in ["a \"b\"", "a\nb", &"n".repeat(LONGEST_LINE)] {
        refused(&[Action::Show, sources(name)]);
    }
    for action in [fill(vec![]), fill(vec![1 << 16]), Action::Rate { hertz: 0 }] {
        refused(&[Action::Show, action]);
    }
}

/// An output that takes nothing for a while.
#[test]
fn a_record_that_could_not_be_written_whole_is_not_read() {
    struct Full(Vec<u8>, u32);
    impl io::Write for Full {
        fn write(&mut self, bytes: &[u8]) -> io::Result<usize> {
            self.1 += 1;
            match self.1 {
                4..=6 => Err(io::Error::other("no room")),
                _ => self.0.write(bytes),
            }
        }
        fn flush(&mut self) -> io::Result<()> {
            Ok(())
        }
    }
    let mut writer = Writer::with_most_turns(Full(Vec::new(), 0), 2).unwrap();
    let failed = small().iter().filter(|action| writer.write(action).is_err()).count();
    assert!(failed > 0);
    let Full(record, _) = writer.finish().unwrap();
    assert!(matches!(read(&record).1, Err(Stop::Bad(_))));
}

#[test]
fn the_form_is_known_by_the_first_byte() {
    assert_eq!((form(&MAGIC), form(&MAGIC[..1])), (Form::Compact, Form::Compact));
    assert_eq!((form(b""), form(b"run 5\n"), form(b"\xef\xbb\xbfrun 5")), (Form::Text, Form::Text, Form::Text));
    assert!(std::str::from_utf8(&MAGIC[..1]).is_err());
}

fn all(record: &mut Record) -> (Vec<Action>, Option<Stop>) {
    let mut actions = Vec::new();
    loop {
        match record.next() {
            Ok(Some(statement)) => actions.push(statement.action),
            Ok(None) => return (actions, None),
            Err(stop) => {
                assert_eq!(record.next(), Err(stop.clone()), "a stop stays");
                return (actions, Some(stop));
            }
        }
    }
}

#[test]
fn either_form_is_opened() {
    let folder = std::env::temp_dir().join(format!("desk-records-{}", std::process::id()));
    std::fs::create_dir_all(&folder).unwrap();
    let (text, compact, other) = (folder.join("a.txt"), folder.join("a.record"), folder.join("other"));
    let lines: Vec<String> = small().iter().skip(1).map(Action::to_string).collect();
    std::fs::write(&text, format!("include other\n{}\n", lines.join("\n"))).unwrap();
    std::fs::write(&other, "rate 48000\n").unwrap();
    std::fs::write(&compact, written(&small(), 4)).unwrap();
    for (file, form, files) in [(&text, Form::Text, vec![text.clone(), other.clone()]), (&compact, Form::Compact, vec![compact.clone()])] {
        let mut record = open(file).unwrap();
        assert_eq!(record.form(), form);
        assert_eq!(all(&mut record), (small(), None));
        assert_eq!(record.files(), files);
        assert!(record.bytes() >= std::fs::metadata(file).unwrap().len());
    }
    let gone = open(&folder.join("gone")).err().unwrap().to_string();
    assert!(gone.contains("gone: cannot read: "), "{gone}");
    assert!(open(&folder).is_err());
    std::fs::remove_dir_all(folder).unwrap();
}

#[test]
fn a_fault_in_a_text_is_bad_and_stays() {
    let mut record = Record::of_input(Path::new("x"), Box::new(Cursor::new("run 5\nrunn 5\nrun 6\n"))).unwrap();
    let (actions, stop) = all(&mut record);
    assert_eq!(actions, [event(0, 5)]);
    assert!(matches!(stop, Some(Stop::Bad(_))));
}

/// The record that docs/RECORDS.md shows is what is written of the text that it shows.
#[test]
fn the_example_of_the_description_is_right() {
    let description = include_str!("../../../../docs/RECORDS.md");
    let shown = |name: &str| description.split(name).nth(1).and_then(|rest| rest.split("```").next()).unwrap();
    let text = shown("```text example\n");
    let bytes: Vec<u8> = shown("```hex example\n").split_whitespace().map(|byte| u8::from_str_radix(byte, 16).unwrap()).collect();
    let actions: Vec<Action> = read_text(Path::new("x"), text.as_bytes()).unwrap().into_iter().map(|statement| statement.action).collect();
    assert_eq!(written(&actions, 1 << 16), bytes);
    assert_eq!(read(&bytes), (actions, Ok(())));
}

/// A record of these lines, each a turn of its own, with checks that hold: no writer is asked.
fn of_lines(lines: &[&str]) -> Vec<u8> {
    let mut payload = vec![lines.len() as u8];
    for line in lines {
        payload.extend([1, 10, line.len() as u8]);
        payload.extend(line.as_bytes());
    }
    payload.push(lines.len() as u8);
    super::index::pack(0..lines.len() as u32, lines.len(), &mut payload);
    signed(&[(b'T', payload)])
}

#[test]
fn what_the_chip_does_not_have_is_refused_where_it_stands() {
    for (line, told) in [
        ("program 200H: 000000H", "program 200H: expected an address below 200H on the 77P20"),
        ("patch rom 1FFH: 0000H 0000H", "rom 200H: expected an address below 200H on the 77P20"),
        ("ram 080H: 0000H", "ram 080H: expected an address below 80H on the 77P20"),
        ("expect ram FFH 0000H", "ram 0FFH: expected an address below 80H on the 77P20"),
        ("set TRB 0001H", "TRB: expected a register of the 77P20"),
        ("expect TRB 0001H", "TRB: expected a register of the 77P20"),
    ] {
        assert_eq!(message(&of_lines(&["show", line])), format!("x: statement 2: {told}"));
        assert_eq!(message(&of_lines(&["chip 77P20", line])), format!("x: statement 2: {told}"));
        // There the end is missing, and nothing else.
        let (actions, end) = read(&of_lines(&["chip 77C25", line]));
        assert!(actions.len() == 2 && matches!(end, Err(Stop::Cut(_))), "{line}: {end:?}");
    }
    assert_eq!(
        message(&of_lines(&["show", "chip 77C25"])),
        "x: statement 2: `chip 77C25`: expected before all that depends on it; a `show` stands at x: statement 1"
    );
    assert_eq!(
        message(&of_lines(&["chip 77C25", "chip 77C25"])),
        "x: statement 2: `chip 77C25`: expected once; `chip 77C25` stands at x: statement 1"
    );
}
