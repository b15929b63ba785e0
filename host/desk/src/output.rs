//! What is printed: one buffered writer over standard output. A reader that closed its end is no fault and changes no verdict.

use crate::fault::Fault;
use std::io::{self, BufWriter, Stdout, Write};
use std::path::Path;

pub struct Output {
    writer: BufWriter<Stdout>,
    /// Nobody reads any more.
    closed: bool,
}

impl Output {
    pub fn new() -> Output {
        Output { writer: BufWriter::new(io::stdout()), closed: false }
    }

    /// Prints a text as it is.
    pub fn print(&mut self, text: &str) -> Result<(), Fault> {
        if self.closed {
            return Ok(());
        }
        let result = self.writer.write_all(text.as_bytes());
        self.told(result)
    }

    /// Prints a line.
    pub fn line(&mut self, text: &str) -> Result<(), Fault> {
        self.print(text)?;
        self.print("\n")
    }

    /// Everything printed so far is on its way.
    pub fn flush(&mut self) -> Result<(), Fault> {
        if self.closed {
            return Ok(());
        }
        let result = self.writer.flush();
        self.told(result)
    }

    fn told(&mut self, result: io::Result<()>) -> Result<(), Fault> {
        match result {
            Err(error) if error.kind() == io::ErrorKind::BrokenPipe => {
                self.closed = true;
                Ok(())
            }
            Err(error) => Err(Fault::of_file(Path::new("standard output"), "write", &error)),
            Ok(()) => Ok(()),
        }
    }
}

impl Default for Output {
    fn default() -> Output {
        Output::new()
    }
}

/// Prints lines that are at hand.
pub fn print_lines(lines: &[String]) -> Result<(), Fault> {
    let mut output = Output::new();
    lines.iter().try_for_each(|line| output.line(line))?;
    output.flush()
}

/// Tells something on the standard error, beside the verdict. Where nobody can be told, the status still tells.
pub fn tell(text: &str) {
    let _ = writeln!(io::stderr(), "desk: {text}");
}
