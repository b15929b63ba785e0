//! The chip that a script says: the 77C25 beside the 77P20, played, mixed and checked, and what is told where a program is given to the wrong one.

mod example;
mod images;
mod played;
mod records;
mod statement;
mod tracks;
mod wrong;

use crate::folder::{Folder, Ran};

fn run_text(text: &str) -> Ran {
    Folder::new().with("s.desk", text).desk("run s.desk")
}

/// The script is bad, and nothing of it is played.
#[track_caller]
fn is_bad(text: &str, told: &str) {
    run_text(text).is_refused(2, &format!("s.desk:{told}"));
}

/// JNSIAK 000H; MOV @SOM,SIM; JMP 000H: what comes in is sent.
const THROUGH: &str = "chip 77C25\nprogram 0: 968000H 0000B9H A00000H\n";
