//! Example B: 64 sections of Example A, each one's output the next one's input. A whole program, with serial input and output.

use super::arithmetic::{cell, kept, signed};
use super::example_a::{biqfil, Section};
use super::line::{ours, printed, Line};
use super::running::{Run, SERIAL_IN, SERIAL_OUT};
use crate::chip_values::ChipValues;
use random::Random;

const WAITIN: u16 = 0x06;
const OUTPUT: u16 = 0x14;
const BIQFIL: u32 = 0x17;

const PROGRAM: [Line; 23] = [
    // The copy has "esr, H0000"; this H and some after it are Cyrillic letters.
    printed(1273, 0x600007, "LDI @SR,0000H"),
    printed(1274, 0x600001, "LDI @A,0000H"),
    printed(1275, 0x600fe2, "LDI @B,007FH"),
    printed(1276, 0x000024, "CLLOOP: OP MOV @DP,B"),
    // The copy lost MOV and DEC and kept "@MEM,A ACCB"; the comments say "DATA TO RAM" and "DECREMENT ADDRESS".
    printed(1277, 0x04401f, "OP MOV @MEM,A DEC ACCB"),
    printed(1278, 0x484030, "JNCB CLLOOP"),
    printed(1279, 0x4b4060, "WAITIN: JNSIAK WAITIN"),
    printed(1280, 0x600004, "LDI @DP,0000H"),
    // The copy has the letter O in O1FFH.
    printed(1281, 0x603fe5, "LDI @RP,01FFH"),
    printed(1282, 0x0000b1, "OP MOV @A,SIM"),
    printed(1288, 0x540170, "BIQUAD4: CALL BIQFIL"),
    printed(1289, 0x000400, "OP M2"),
    printed(1290, 0x540170, "CALL BIQFIL"),
    // The copy has a Cyrillic M in M6.
    printed(1291, 0x000c00, "OP M6"),
    printed(1292, 0x540170, "CALL BIQFIL"),
    printed(1293, 0x000400, "OP M2"),
    printed(1294, 0x540170, "CALL BIQFIL"),
    printed(1295, 0x001c00, "OP M6 DPINC"),
    // The copy has "JDPL(" and moved OUTPUT to the line before; the comment says "IF WRAPPED AROUND TO FIRST COLUMN".
    printed(1296, 0x4b0140, "JDPL0 OUTPUT"),
    printed(1297, 0x5000a0, "JMP BIQUAD4"),
    // The copy has "JSOAI K"; the comment says "WAIT FOR SERIAL OUTPUT REGISTER TO BE EMPTY".
    printed(1298, 0x4ba140, "OUTPUT: JSOAK OUTPUT"),
    printed(1299, 0x000019, "OP MOV @SOM,A"),
    printed(1300, 0x500060, "JMP WAITIN"),
];

/// Three words before the loop that clears RAM, and three for each of its 128 cells.
const WORDS_TO_WAITIN: u32 = 3 + 128 * 3;

/// Four words to the sample in A, 50 for each column less the last one's JMP, and three from OUTPUT back to WAITIN.
const WORDS_OF_A_SAMPLE: u32 = 4 + (16 * 50 - 1) + 3;

/// The program beside 64 sections in whole numbers.
struct Cascade {
    run: Run,
    sections: Vec<Section>,
    random: Random,
}

impl Cascade {
    /// At WAITIN with the RAM cleared; the first section's coefficients are the top five cells, the next one's lie below.
    fn new(program: &[Line], sections: Vec<Section>) -> Result<Cascade, String> {
        let mut run = Run::new("Example B, 64 biquads", program)?;
        for (place, cell) in sections.iter().flat_map(|section| section.cells).enumerate() {
            run.pair.rom[511 - place] = cell;
        }
        let mut random = Random::new(0xb0);
        run.disturb(&mut random);
        run.pair.registers.sr = 0x6f83;
        run.pair.ram.fill(0x5a5a);
        let words = run.until("clearing RAM", WAITIN)?;
        run.same_words("clearing RAM", WORDS_TO_WAITIN, words)?;
        run.same("clearing RAM", "SR", 0, run.pair.registers.sr)?;
        run.same_ram("clearing RAM", 0, &[0; 128])?;
        Ok(Cascade { run, sections, random })
    }

    /// One sample from WAITIN to WAITIN; checks the words, SO and all 128 delay taps, and hands the output and the words.
    fn sample(&mut self, step: &str, x: u16) -> Result<(u16, u32), String> {
        self.run.disturb(&mut self.random);
        self.run.waits_at(step, WAITIN)?;
        self.run.event(step, SERIAL_IN, x.into())?;
        let words = self.run.until(step, WAITIN)?;
        let (y, overflows) = self.filter(x);
        self.run.same_words(step, WORDS_OF_A_SAMPLE + overflows, words)?;
        self.run.same(step, "output", y, self.run.pair.registers.so)?;
        self.run.same_ram(step, 0, &self.delay_taps())?;
        Ok((y, words))
    }

    /// The sample through all sections, and how many of them overflowed: each of those takes a word more.
    fn filter(&mut self, x: u16) -> (u16, u32) {
        let (mut value, mut overflows) = (x, 0);
        for section in &mut self.sections {
            let output = section.filter(signed(value));
            value = kept(output.y);
            overflows += u32::from(output.overflow);
        }
        (value, overflows)
    }

    /// Four sections in each of 16 columns, W(I-1) in an even row and W(I-2) in the row after it.
    fn delay_taps(&self) -> Vec<u16> {
        let mut ram = vec![0; 128];
        for (number, section) in self.sections.iter().enumerate() {
            let first = number / 4 + 0x20 * (number % 4);
            ram[first] = kept(section.w1);
            ram[first + 0x10] = kept(section.w2);
        }
        ram
    }
}

fn published() -> Vec<Line> {
    let mut program = PROGRAM.to_vec();
    program.extend(biqfil(BIQFIL));
    program
}

/// AN0 a little under 1 and small feedback and feed-forward, so that a sample comes through 64 sections.
fn gentle(random: &mut Random) -> Vec<Section> {
    let mut small = || cell(random.within(0x100));
    (0..64).map(|_| Section::new([0x0ff0, small(), small(), small(), small()])).collect()
}

/// On the chip SOACK is 1 while SO is full (3.24, 2 and 5); by 01 it is 1 once the word was taken. So JSOAK waits for ever.
pub fn as_published() -> Result<String, String> {
    let mut random = Random::new(0xb);
    let mut cascade = Cascade::new(&published(), gentle(&mut random))?;
    for sample in 0..3 {
        let step = format!("as published, sample {sample} not taken out");
        let (_, words) = cascade.sample(&step, kept(random.within(0x2000)))?;
        cascade.run.same_words(&step, 806, words)?;
    }
    let step = "as published, the first sample taken out";
    let (y, _) = cascade.sample(step, kept(random.within(0x2000)))?;
    let Cascade { mut run, .. } = cascade;
    let handed = run.event(step, SERIAL_OUT, 0)?;
    run.same(step, "word on the serial line", y, handed)?;

    let step = "as published, the sample after that";
    run.event(step, SERIAL_IN, 0x1234)?;
    let words = run.until(step, OUTPUT)?;
    run.same_words(step, WORDS_OF_A_SAMPLE - 3, words)?;
    let waiting = run.pair.registers;
    run.waits_at(step, OUTPUT)?;
    run.same(step, "registers that no word changes any more", waiting, run.pair.registers)?;
    Ok("Example B, 64 biquads: as published 387 words to WAITIN and 806 a sample; \
        it waits at OUTPUT for ever once a word was taken out, as SOACK has the other sense in 01"
        .to_string())
}

/// With JSOAK OUTPUT replaced by a word that does nothing; the manual calls the step unnecessary if input and output are synchronized.
pub fn without_waiting() -> Result<String, String> {
    let mut program = published();
    program[usize::from(OUTPUT)] = ours(0x000000, "OUTPUT: OP");
    let mut random = Random::new(0xbb);

    let mut gentle = Cascade::new(&program, gentle(&mut random))?;
    for sample in 0..10 {
        taken_out(&mut gentle, &format!("in range, sample {sample}"), kept(random.within(0x2000)))?;
    }

    let any = (0..64).map(|_| Section::new([(); 5].map(|()| random.cell()))).collect();
    let mut any = Cascade::new(&program, any)?;
    for sample in 0..10 {
        taken_out(&mut any, &format!("any size, sample {sample}"), random.word())?;
    }

    // 64 times -1 is 1: every sample but 8000H comes back as it went in.
    let mut negating = Cascade::new(&program, vec![Section::new([0x1000, 0, 0, 0, 0]); 64])?;
    for x in [0x0001, 0x7fff, 0x8001, 0xffff, 0x1234] {
        let step = format!("64 times -1, sample {x:04X}H");
        let y = taken_out(&mut negating, &step, x)?;
        negating.run.same(&step, "output", x, y)?;
    }
    Ok("Example B, 64 biquads, not waiting at OUTPUT: 25 samples come out on the serial line as 64 times the formula".to_string())
}

/// One sample in, and its output taken out.
fn taken_out(cascade: &mut Cascade, step: &str, x: u16) -> Result<u16, String> {
    let (y, _) = cascade.sample(step, x)?;
    let handed = cascade.run.event(step, SERIAL_OUT, 0)?;
    cascade.run.same(step, "word on the serial line", y, handed)?;
    Ok(handed)
}
