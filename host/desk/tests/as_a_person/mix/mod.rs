//! `desk mix` as a person uses it.

mod exact;
mod faults;
mod outputs;
mod records;
mod remarks;
mod streams;

use crate::folder::Folder;

const MIX: &str = "mix mixing.desk preset.desk --in booth.wav floor.wav relay.wav --out track.wav";

/// JNSIAK 000H; MOV @SOM,SIM; JMP 000H: what comes in is sent.
const THROUGH: &str = "program 0: 4B4000H 0000B9H 500000H\n";

/// A folder with the mixing program of the examples, its preset and three short sounds.
fn mixing() -> Folder {
    let folder = Folder::new();
    folder.copy_example("mixing/mixing.desk");
    folder.copy_example("mixing/preset.desk");
    folder.write_sound("booth.wav", 8000, &[1000, -1000, 32767]);
    folder.write_sound("floor.wav", 8000, &[2000, 1, -32768]);
    folder.write_sound("relay.wav", 8000, &[3000, -3, 0]);
    folder
}
