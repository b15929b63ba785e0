//! `desk convert`: a record from text into the compact form, or back.

use crate::commands::arguments::Arguments;
use crate::fault::Fault;
use crate::files::{self, NewFile};
use crate::progress::{Meter, Progress};
use crate::records::{self, compact, Form, Record};
use crate::scripts::statement::Action;
use std::io::{self, BufWriter, Write};
use std::path::Path;

const USE: &str = "expected `desk convert RECORD OTHER`, where - is standard input or output";

pub fn command(arguments: &[String]) -> Result<(), Fault> {
    let mut arguments = Arguments::new(USE, arguments);
    let [from, to] = arguments.only_files()?[..] else { return Err(arguments.bad("a record and a file to write")) };
    let mut record = records::open(Path::new(from))?;
    let path = Path::new(to);
    if files::is_standard(path) {
        let output = BufWriter::with_capacity(1 << 16, io::stdout().lock());
        return converted(&mut record, output, Path::new("standard output")).map(|_| ());
    }
    let file = NewFile::create(path)?;
    let file = converted(&mut record, BufWriter::new(file), path)?;
    files::replace_no_input(&[path], &record.files())?;
    file.into_inner().map_err(|error| Fault::of_file(path, "write", error.error()))?.finish()
}

/// Writes the statements in the other form.
fn converted<W: Write>(record: &mut Record, mut output: W, path: &Path) -> Result<W, Fault> {
    let failed = |error: io::Error| Fault::of_file(path, "write", &error);
    let meter = Meter::default();
    let _progress = Progress::of("converting, bytes", None, vec![meter.clone()]);
    match record.form() {
        Form::Compact => {
            each(record, &meter, |action| writeln!(output, "{action}").map_err(failed))?;
            output.flush().map_err(failed)?;
            Ok(output)
        }
        Form::Text => {
            let mut writer = compact::Writer::new(output).map_err(failed)?;
            each(record, &meter, |action| writer.write(action).map_err(failed))?;
            writer.finish().map_err(failed)
        }
    }
}

fn each(record: &mut Record, meter: &Meter, mut write: impl FnMut(&Action) -> Result<(), Fault>) -> Result<(), Fault> {
    while let Some(statement) = record.next().map_err(|stop| stop.fault())? {
        meter.at(record.bytes());
        write(&statement.action)?;
    }
    Ok(())
}
