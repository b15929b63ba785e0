//! `desk help` and `desk help COMMAND`.

use crate::fault::Fault;
use crate::output::Output;
use crate::scripts::nearest::nearest;

const OVERVIEW: &str = "\
desk: the uPD7720A / 77P20 and the uPD77C25 in software, for the bench

  desk run SCRIPT             play a script and check what it expects
  desk trace SCRIPT           print each word as it finishes, and what changed
  desk check-track ..         was what the desk sent what the chip would have sent?
  desk check-image FILE..     which words of a program would be refused, as those of a worn EPROM?
  desk mix SCRIPT.. --in WAV.. --out WAV
                              mix sound files by a program
  desk preset COMMAND ..      write, check, show and compare presets in Intel HEX
  desk convert RECORD OTHER   a record from text into the compact form, or back
  desk example FOLDER         mix three tones and check the track
  desk help COMMAND           more about a command; also desk COMMAND --help
  desk --version              the release, and the version of the library's interface

Behind `--` every word is a file's name.
Exit status: 0 done, 1 a script or check failed, 2 bad use or bad input.

Example:
  $ desk run examples/bench/case-10.desk
";

const RUN: &str = "\
desk run [--quiet | --json] [--program FILE] [--data FILE] [--preset FILE] SCRIPT

Plays a script on the proved core; `-` reads it from standard input. Each event prints its reply: the number
with its meaning, the words done (of a run, and 2 of an interrupt that is accepted), the value. The first
expectation that does not hold ends the run with status 1, and so does an event that is refused where no `reply`
behind it expects that. A record is a script too, in text or in the compact form.

A script is for the 77P20 unless it says `chip 77C25`: the larger chip has 2048 words of 24 bits, 1024 data ROM cells
of 16, 256 RAM cells and the register TRB. Images in Intel HEX and presets are of the 77P20.

  --quiet          print failures only
  --json           print one object a reply
  --program FILE   the program, an image in Intel HEX, given before the script's own statements
  --data FILE      the data ROM, in the same way
  --preset FILE    all 128 cells of the RAM, in the same way

An image has record types 00 and 01, every address once, low bytes first (word n from address 4n on, cell n from
2n on), and an end record last. It is loaded whole, or refused with its line and what is wrong there.

Statements, one a line, in small letters or capitals; # begins a comment; 1234H is hexadecimal, 1234 decimal;
a name with spaces stands in \"quotes\":

  chip 77P20 | 77C25                the chip, once and before all that depends on it
  program ADDRESS: WORD ..          instruction words from an address on; each address is given once
  program FILE                      all of them: an image in Intel HEX, beside this script
  rom ADDRESS: CELL ..              data ROM cells
  data FILE                         all of them: an image in Intel HEX, beside this script
  ram ADDRESS: WORD ..              RAM cells
  preset FILE                       all of them: an image in Intel HEX, beside this script
  patch program | rom | ram | preset ..
                                    the same, over what was given before
  set REGISTER VALUE                PC STACK0 .. STACK3 DEPTH A B K L TR DR SI SO DP RP SR SIACK SOACK SORQ,
                                    TRB of the 77C25, and the flags SA1 SA0 CA ZA OVA1 OVA0 SB1 SB0 CB ZB OVB1 OVB0
  run WORDS | in WORD | out | read | write BYTE | status | interrupt | reset
  event KIND VALUE                  an event by its number, 0 to 7
  reply NUMBER [words N] [value V]  what the event before was to be answered
  expect REGISTER VALUE             what a register holds now
  expect ram ADDRESS VALUE          what a RAM cell holds now
  sent WORD                         what was sent at the `out` before
  show                              registers, flags by name, RAM with what changed marked
  include FILE                      the statements of another script, beside this one
  rate HERTZ                        of a record: samples a second
  sources NAME ..                   of a record: what the words in of each sample are
  samples NUMBER                    the end of a record: how many words were sent; nothing follows

Example:
  $ desk run examples/bench/case-04.desk
";

const TRACE: &str = "\
desk trace [--from N] [--count N] [--program FILE] [--data FILE] [--preset FILE] SCRIPT

Plays and judges a script as `desk run` does, word by word, and prints each word as it finishes: its address,
the word, its fields in the mnemonics of the script's chip, and only what changed. This is how a wrong channel map is
found.
The two words that an interrupt takes stand in its reply; they have no line and no number.

  --from N         print nothing of the first N words
  --count N        print N words; what comes behind them is played and judged all the same
  --program FILE   the program, an image in Intel HEX, given before the script's own statements
  --data FILE      the data ROM, in the same way
  --preset FILE    all 128 cells of the RAM, in the same way

N may be hexadecimal, as 14H; a script of - is standard input.

Example:
  $ desk trace --count 3 examples/bench/case-10.desk
";

const CHECK_TRACK: &str = "\
desk check-track RECORD..
desk check-track --program FILE.. [--data FILE] [--preset FILE] --in WAV.. --sent WAV
desk check-track --tracks LIST

Gives the proved core what the desk was given and holds every word that the desk sent against what the chip
would have sent. A record has the events; with sound files the sources go through the program as in `desk mix`. A
track of the 77C25 is told: `chip 77C25` stands in its record, or in the scripts of its program.
A file of the program is a script, or an image in Intel HEX, which begins with a colon; `data` is the image of the
data ROM, `preset` that of the RAM. A list has a line a track, paths relative to it:

  track English record english.record
  track \"Channel 2\" program mixing.desk preset.desk in booth.wav floor.wav relay.wav sent channel-2.wav
  track German program mixing.hex data rom.hex preset monday.hex in booth.wav floor.wav relay.wav sent german.wav

  --report FILE.html   a page for the coordinator: which track is wrong, since when, which source is on it
  --start HH:MM:SS     the time of day of the first sample

One line a track, and a last line that counts them:
  agrees       the whole of it was there, and is what the chip sends
  differs      a word is not what the chip sends, an expectation does not hold, or an event was refused
  incomplete   the record is cut, a `sent` is missing, or it is shorter than the others of the call
  unreadable   a file is damaged, altered or missing
Status 0 if all agree, 2 if one is unreadable, else 1.

A record is a script with the program, the data and the preset (or lines that name their files), then the
events in order, after each `out` the word that was sent, and at the end the number of samples:

  include channels.desk
  include preset.desk
  rate 48000
  in 1234H
  run 20
  out
  sent 0923H
  samples 1

Example:
  $ desk check-track examples/trial/good.record
";

const CHECK_IMAGE: &str = "\
desk check-image FILE..

Says which words of a program, an image in Intel HEX, the machine would refuse wherever it came to them: those of a
worn EPROM are found on the bench, before they play. Such images are of the 77P20; a program of the 77C25 stands in
a script.

  4    the word is 2^23 or more: a bit above D22 is set
  5    BRCH, D20-18 of a jump, is none of 010, 100, 101
  18   bits are set that the word does not use: the spare bits D3-0 of a jump or D4 of an LDI, or CND, D17-13,
       under JMP or CALL

A line a word, with its address, the word, its mnemonics, the refusal and the bits at fault; then a line a file, good,
faulty, refused (no image of a program) or unreadable, and a last line that counts them. Status 0 if all are
good, 2 if one is unreadable, else 1. `-` is standard input, once.

Good says nothing of a bit that changed one word that runs into another, and nothing of refusals 6 to 9: 6 is of
the program as it was written, 7, 8 and 9 depend on what the machine holds.

Example:
  $ desk check-image examples/intel_hex/worn.hex
";

const MIX: &str = "\
desk mix [--program FILE] [--data FILE] [--preset FILE] SCRIPT.. --in WAV.. --out WAV [--record FILE]

Runs one sample of each source through the serial port for every sample of the track: each goes in, the program
runs until it has taken it, and after the last until it sends. The scripts say the chip and bring the program, the
data and the preset; events in them are played once, at the start. One to sixteen sound files, 16-bit mono PCM
WAV, all at one rate; the shorter ones end in silence. The track is written whole or not at all, and never over a
file that is read. A sound of `-` is standard input or output.

  --program FILE   the program, an image in Intel HEX, given before the scripts; with it no script is needed
  --data FILE      the data ROM, an image in Intel HEX
  --preset FILE    all 128 cells of the RAM, an image in Intel HEX
  --record FILE    write the record of the mix too, in the compact form

Example, in the folder that `desk example` makes:
  $ desk mix mixing.desk preset.desk --in booth.wav floor.wav relay.wav --out again.wav
";

const PRESET: &str = "\
desk preset write SCRIPT --out FILE [--events N] [--program FILE] [--data FILE] [--preset FILE]
desk preset check FILE..
desk preset show FILE
desk preset diff A B

A preset is the 128 cells of the 77P20's RAM as an image in Intel HEX: 256 bytes from address 0 on, low byte first.
It is loaded whole or refused: half a preset is refusal 15, and the RAM keeps every cell. A script names one by
`preset FILE`, over what was given before by `patch preset FILE`; `--preset FILE` gives one to a command.

  write   plays a script as `desk run --quiet` does, and writes the RAM that it leaves: sixteen records of
          sixteen bytes and the end record. Where an expectation does not hold or an event is refused, the status
          is 1 and nothing is written. The file is written whole or not at all, and never over one that is read.
  check   a line a file, good, refused or unreadable, and a last line that counts them; a good one that desk would
          write otherwise is told with its first such line. Status 0 if all are good, 2 if one is unreadable, else 1.
  show    the cells in rows of sixteen. The row is DP's bits 6 to 4, which DPH-M changes, the column its bits 3 to 0.
  diff    a line a cell that differs. Status 0 if none does, 1 if some do, 2 if one is no preset.

  --events N       play only the first N events, of no fewer; 0 writes the RAM as it is given before the first
  --program FILE   the program, an image in Intel HEX, given before the script's own statements
  --data FILE      the data ROM, in the same way
  --preset FILE    all 128 cells of the RAM, in the same way

`-` is standard input or, behind --out, standard output.

Examples:
  $ desk preset write examples/presets/monday.desk --out -
  $ desk preset check examples/presets/monday.hex examples/presets/tuesday.hex
  $ desk preset show examples/presets/monday.hex
  $ desk preset diff examples/presets/monday.hex examples/presets/tuesday.hex
";

const CONVERT: &str = "\
desk convert RECORD OTHER

Writes a record in its other form: a text becomes a compact record, a compact record a text. No statement is
lost; the scripts and images that a text names stand in it afterwards, comments do not. `-` is standard input or
output. A compact record notices when it is cut or altered: docs/RECORDS.md describes it.

Example, in the folder that `desk example` makes:
  $ desk convert track.record -
";

const EXAMPLE: &str = "\
desk example FOLDER

Writes three tones (booth.wav, floor.wav, relay.wav) and the mixing program into a folder, mixes them to
track.wav and track.record, checks every sample against exact arithmetic, and prints the level of each source in
the mix. Files of these names are replaced.

Example:
  $ desk example sound
";

const HELP: &str = "\
desk help [COMMAND]

Tells what desk does, or more about one command.

Example:
  $ desk help run
";

/// The commands and their texts, the overview first.
pub const TEXTS: [(&str, &str); 10] = [
    ("", OVERVIEW),
    ("run", RUN),
    ("trace", TRACE),
    ("check-track", CHECK_TRACK),
    ("check-image", CHECK_IMAGE),
    ("mix", MIX),
    ("preset", PRESET),
    ("convert", CONVERT),
    ("example", EXAMPLE),
    ("help", HELP),
];

pub fn is_command(name: &str) -> bool {
    TEXTS.iter().any(|(command, _)| *command == name)
}

/// No such command; the nearest is named.
pub fn no_command(name: &str) -> Fault {
    let commands = TEXTS.iter().map(|(command, _)| *command).filter(|command| !command.is_empty());
    unknown(name, "command", commands, "desk help")
}

/// A name that is none of these; the nearest is named, and what tells more.
pub fn unknown<'a>(name: &str, what: &str, names: impl IntoIterator<Item = &'a str>, see: &str) -> Fault {
    let perhaps = nearest(name, names).map_or_else(String::new, |meant| format!(", perhaps {meant:?}"));
    Fault::bad(format!("{name:?} is no {what}{perhaps}: see `{see}`"))
}

pub fn command(arguments: &[String]) -> Result<(), Fault> {
    let name = match arguments {
        [] => "",
        [name] => name.as_str(),
        _ => return Err(Fault::bad("help takes one command: see `desk help`")),
    };
    let text = TEXTS.iter().find(|(command, _)| *command == name);
    let (_, text) = text.ok_or_else(|| no_command(name))?;
    let mut output = Output::new();
    output.print(text)?;
    output.flush()
}
