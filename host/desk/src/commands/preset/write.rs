//! `desk preset write`: plays a script as `desk run --quiet` does, and writes what it leaves in the RAM.

use super::file;
use crate::chip::device::Device;
use crate::commands::arguments::{Argument, Arguments};
use crate::commands::image_files::called;
use crate::commands::script::{self, Script, Statements};
use crate::fault::Fault;
use crate::files::{self, is_standard};
use crate::images::preset;
use crate::numbers::counted;
use crate::output::Output;
use crate::scripts::given::Images;
use crate::scripts::player::Player;
use crate::scripts::statement::Action;
use std::path::Path;

const USE: &str = "expected `desk preset write SCRIPT --out FILE [--events N] [--program FILE] [--data FILE] [--preset FILE]`, \
                   where - is standard input or output";

struct Asked<'a> {
    script: &'a str,
    images: Images,
    /// How many events are played; all if none is said.
    events: Option<u64>,
    out: &'a Path,
}

pub fn command(arguments: &[String]) -> Result<(), Fault> {
    let Asked { script, images, events, out } = asked(arguments)?;
    let (mut has, mut larger_chip) = (0, None);
    let Script { statements, files } = script::checked(script, &images, |statement| match statement.action {
        Action::Event(_) => has += 1,
        Action::Chip { device: device @ Device::Upd77c25 } => larger_chip = Some((statement.place, device)),
        _ => {}
    })?;
    if let Some((place, device)) = larger_chip {
        return Err(Fault::bad_at(place, format!("`chip {device}`: presets in Intel HEX are of the 77P20: expected a script for that")));
    }
    if let Some(events) = events.filter(|events| *events > has) {
        let (script, has) = (called(Path::new(script)).display(), counted(has as usize, "event"));
        return Err(Fault::bad(format!("--events {events}: {script} has {has}: expected no more than that")));
    }
    if !is_standard(out) {
        files::replace_no_input(&[out], &files)?;
    }
    write(out, &played(statements, events)?)
}

fn asked(arguments: &[String]) -> Result<Asked<'_>, Fault> {
    let (mut script, mut events, mut out) = (None, None, None);
    let mut images = Images::default();
    let mut arguments = Arguments::new(USE, arguments);
    while let Some(argument) = arguments.next() {
        match argument {
            Argument::Option(option @ "--out") => {
                let file = Path::new(arguments.value(option, "the file of the preset")?);
                arguments.once(&mut out, option, file)?;
            }
            Argument::Option(option @ "--events") => arguments.number(option, "a number of events", &mut events)?,
            Argument::Option(option @ ("--program" | "--data" | "--preset")) => arguments.image(option, &mut images)?,
            Argument::Option(option) => return Err(arguments.unknown(option)),
            Argument::File(file) => arguments.script(&mut script, file)?,
        }
    }
    let script = script.ok_or_else(|| arguments.bad("no script"))?;
    let out = out.ok_or_else(|| arguments.bad("no --out: expected the file of the preset"))?;
    Ok(Asked { script, images, events, out })
}

/// The RAM as the script leaves it, or as it is before the first event that is not played.
fn played(statements: Statements, events: Option<u64>) -> Result<Vec<u16>, Fault> {
    let mut player = Player::new();
    let mut played = 0;
    for statement in statements {
        let statement = statement?;
        if matches!(statement.action, Action::Event(_)) {
            if events == Some(played) {
                break;
            }
            played += 1;
        }
        player.play(&statement)?;
    }
    player.settle()?;
    Ok(player.machine.cells().to_vec())
}

fn write(out: &Path, ram: &[u16]) -> Result<(), Fault> {
    let text = preset::written(ram)?;
    let mut output = Output::new();
    if is_standard(out) {
        output.print(&text)?;
    } else {
        files::write_whole(out, text.as_bytes())?;
        output.line(&format!("{}: {} cells, {} of them not 0", out.display(), ram.len(), file::used(ram)))?;
    }
    output.flush()
}
