//! What the pointers were seen to do.

use super::field::Field;
use emulator::destination::{DP, KLM, RP};
use emulator::{Chip, OpFields, Registers, Sizes, Word};

pub struct Pointers {
    sizes: Sizes,
    low_pointers: Field,
    rows: Field,
    rom_pointer: Field,
    // A word loads a pointer that it would step.
    loaded: Field,
    rounds: Field,
    // KLM by DP's bits from bit 6 on: of the address bit 6 is set and bit 7 kept.
    klm: Field,
}

impl Pointers {
    pub fn new(chip: Chip) -> Pointers {
        let sizes = chip.sizes();
        Pointers {
            sizes,
            low_pointers: Field::new("DPL", 4),
            rows: Field::new("DPH-M", sizes.ram / 16),
            rom_pointer: Field::new("RPDCR", 2),
            loaded: Field::new("step beside a load (0 DPL, 1 DPH-M, 2 RPDCR)", 3),
            rounds: Field::new("way round (0 PC, 1 RP, 2 low DP up, 3 low DP down, 4 the address that a call pushes)", 5),
            klm: Field::new("KLM at DP from so many times 64 on,", sizes.ram / 64),
        }
    }

    /// A word that finished.
    pub fn word(&mut self, word: &Word, before: &Registers, after: &Registers) {
        if let Word::Op(f) | Word::Rt(f) = word {
            self.moved(f, before);
        }
        let at_the_last = usize::from(before.pc) == self.sizes.words - 1;
        self.rounds.met_if(0, at_the_last && matches!(word, Word::Op(_) | Word::Ldi(_)));
        self.rounds.met_if(4, at_the_last && after.depth > before.depth);
    }

    fn moved(&mut self, f: &OpFields, before: &Registers) {
        self.low_pointers.met(usize::from(f.dpl));
        self.rows.met(usize::from(f.dphm));
        self.rom_pointer.met(usize::from(f.rpdcr));
        let (loads_dp, loads_rp, low_dp) = (f.dst == DP, f.dst == RP, before.dp % 16);
        self.loaded.met_if(0, loads_dp && f.dpl != 0);
        self.loaded.met_if(1, loads_dp && f.dphm != 0);
        self.loaded.met_if(2, loads_rp && f.rpdcr == 1);
        self.rounds.met_if(1, !loads_rp && f.rpdcr == 1 && before.rp == 0);
        self.rounds.met_if(2, !loads_dp && f.dpl == 1 && low_dp == 15);
        self.rounds.met_if(3, !loads_dp && f.dpl == 2 && low_dp == 0);
        if f.dst == KLM {
            self.klm.met(usize::from(before.dp) / 64);
        }
    }

    pub fn fields(&self) -> Vec<&Field> {
        vec![&self.low_pointers, &self.rows, &self.rom_pointer, &self.loaded, &self.rounds, &self.klm]
    }
}
