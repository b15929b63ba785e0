//! `desk check-image`: the words of a program that the machine would refuse wherever it came to them, as a worn EPROM gives them.

use crate::commands::checked_files::{self, Judged};
use crate::commands::tally::Subject;
use crate::fault::Fault;
use crate::images::{self, Image};
use std::path::Path;

const USE: &str = "expected `desk check-image FILE..`, where one of them may be - for standard input";

const IMAGES: Subject = Subject { name: "image", is_not_good: "is not good", are_not_good: "are not good" };

const VERDICTS: [&str; 4] = ["good", "faulty", "refused", "unreadable"];

pub fn command(arguments: &[String]) -> Result<(), Fault> {
    checked_files::each(USE, arguments, IMAGES, VERDICTS, check)
}

fn check(file: &Path, text: &[u8]) -> Result<Judged, Fault> {
    let [good, faulty, refused, _] = VERDICTS;
    let program = match images::load(Image::Program, file, text) {
        Ok(program) => program,
        Err(fault) => return Ok(Judged::told(refused, fault)),
    };
    let words = images::faulty::words(&program)?;
    let lines = words.iter().map(|word| word.to_string()).collect();
    let (verdict, sentence) = match words.len() {
        0 => (good, format!("none of {} words is refused by 4, 5 or 18", program.len())),
        1 => (faulty, format!("1 of {} words is refused by 4, 5 or 18", program.len())),
        more => (faulty, format!("{more} of {} words are refused by 4, 5 or 18", program.len())),
    };
    Ok(Judged { verdict, sentence, lines })
}
