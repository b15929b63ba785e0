//! A machine as images and scripts prepare it for a mix: memories and registers filled, and events played once.

use crate::chip::event::{Answered, Event};
use crate::chip::machine::Machine;
use crate::fault::Fault;
use crate::scripts::given::Images;
use crate::scripts::player::{Played, Player};
use crate::scripts::reader::Reader;
use crate::scripts::statement::{Action, Statement};
use bemulatsho::{kind, Reply};
use std::path::PathBuf;

/// More statements are no script for a mix.
const MOST: usize = 100_000;

pub struct Prepared {
    pub machine: Machine,
    /// What did it, for a record: the word of each `out` is behind it.
    pub actions: Vec<Action>,
    /// How many words were sent.
    pub sent: u64,
}

/// Reads the images, then the scripts, and carries them out; every file that was read is added to `files`, also where there is a fault.
pub fn prepared(images: &Images, mut scripts: Reader, files: &mut Vec<PathBuf>) -> Result<Prepared, Fault> {
    files.extend(images.files().cloned());
    let given = images.statements()?;
    scripts.given(&given)?;
    let statements = statements(given, &mut scripts);
    files.extend_from_slice(scripts.files());
    let (mut player, mut actions, mut sent) = (Player::new(), Vec::new(), 0);
    for statement in statements? {
        let played = player.play(&statement)?;
        actions.push(statement.action);
        if let Played::Answered(Answered { event: Event { kind: kind::SERIAL_OUT, .. }, reply: Reply { number: 0, value, .. }, .. }) =
            played
        {
            actions.push(Action::Sent { word: value });
            sent += 1;
        }
    }
    player.settle()?;
    Ok(Prepared { machine: player.machine, actions, sent })
}

/// What was given, and the statements of the scripts behind it.
fn statements(given: Vec<Statement>, scripts: &mut Reader) -> Result<Vec<Statement>, Fault> {
    let mut statements = given;
    for statement in scripts {
        let statement = statement?;
        only_prepares(&statement)?;
        if statements.len() == MOST {
            return Err(Fault::bad_at(statement.place, format!("more than {MOST} statements: expected a script for a mix")));
        }
        statements.push(statement);
    }
    Ok(statements)
}

/// Statements that only check or print have no place in a mix.
fn only_prepares(statement: &Statement) -> Result<(), Fault> {
    match &statement.action {
        Action::Chip { .. } | Action::Fill(_) | Action::Set { .. } | Action::Event(_) => Ok(()),
        other => {
            let name = other.name();
            let message = format!(
                "{name:?}: expected only chip, program, data, rom, ram, preset, patch, set, include and events in a script for a mix"
            );
            Err(Fault::bad_at(statement.place, message))
        }
    }
}
