//! A folder of its own for each test, gone at its end, and the program run in it.

use desk::sound::wav::{self, Sound};
use std::fs;
use std::io::Write;
use std::path::{Path, PathBuf};
use std::process::{Child, Command, Output, Stdio};
use std::sync::atomic::{AtomicUsize, Ordering};

pub struct Folder(pub PathBuf);

/// How the program ended, what it printed, and what it told on the standard error.
#[derive(Debug, PartialEq, Eq)]
pub struct Ran {
    pub status: i32,
    pub printed: String,
    pub told: String,
}

impl Ran {
    pub fn new(status: i32, printed: impl Into<String>, told: impl Into<String>) -> Ran {
        Ran { status, printed: printed.into(), told: told.into() }
    }

    /// A signal or a panic is never an end that a person should see.
    fn of(output: Output) -> Ran {
        let text = |bytes| String::from_utf8(bytes).expect("text");
        let ran = Ran::new(output.status.code().expect("a status"), text(output.stdout), text(output.stderr));
        assert!(!ran.told.contains("panicked"), "{ran:?}");
        ran
    }

    /// Done, with this printed and nothing told.
    #[track_caller]
    pub fn is_done(&self, printed: &str) {
        assert_eq!(*self, Ran::new(0, printed, ""));
    }

    /// Ended with this status, with nothing printed and this told.
    #[track_caller]
    pub fn is_refused(&self, status: i32, told: &str) {
        assert_eq!(*self, Ran::new(status, "", format!("desk: {told}\n")));
    }
}

impl Folder {
    pub fn new() -> Folder {
        static COUNT: AtomicUsize = AtomicUsize::new(0);
        let name = format!("desk-{}-{}", std::process::id(), COUNT.fetch_add(1, Ordering::Relaxed));
        let path = std::env::temp_dir().join(name);
        fs::create_dir_all(&path).expect("a temporary folder");
        Folder(path)
    }

    pub fn write(&self, name: &str, bytes: impl AsRef<[u8]>) {
        let path = self.0.join(name);
        fs::create_dir_all(path.parent().expect("a folder")).expect("a folder");
        fs::write(path, bytes).expect("a file in the folder");
    }

    pub fn with(self, name: &str, bytes: impl AsRef<[u8]>) -> Folder {
        self.write(name, bytes);
        self
    }

    pub fn read(&self, name: &str) -> Vec<u8> {
        fs::read(self.0.join(name)).expect("a file in the folder")
    }

    pub fn text(&self, name: &str) -> String {
        String::from_utf8(self.read(name)).expect("text")
    }

    /// The names of all files, in order.
    pub fn names(&self) -> Vec<String> {
        let entries = fs::read_dir(&self.0).expect("the folder");
        let mut names: Vec<String> = entries.map(|entry| entry.expect("a name").file_name().into_string().expect("text")).collect();
        names.sort();
        names
    }

    /// Copies a file of the repository's examples.
    pub fn copy_example(&self, name: &str) {
        let path = examples().join(name);
        self.write(path.file_name().and_then(|name| name.to_str()).expect("a name"), fs::read(&path).expect("an example"));
    }

    pub fn write_sound(&self, name: &str, rate: u32, samples: &[i16]) {
        self.write(name, wav::bytes(&Sound { rate, samples: samples.to_vec() }));
    }

    pub fn sound(&self, name: &str) -> Sound {
        wav::parse(&self.0.join(name), &self.read(name)).expect("a sound")
    }

    /// `desk` in the folder.
    pub fn command(&self, words: &[&str]) -> Command {
        command_in(&self.0, words)
    }

    /// Runs `desk` with the words of a line.
    pub fn desk(&self, line: &str) -> Ran {
        self.desk_of(&line.split_whitespace().collect::<Vec<&str>>())
    }

    pub fn desk_of(&self, words: &[&str]) -> Ran {
        Ran::of(self.command(words).output().expect("desk runs"))
    }

    /// Runs `desk` with the words of a line and something to read.
    pub fn desk_with_input(&self, line: &str, input: &[u8]) -> Ran {
        Ran::of(self.output_with_input(line, input))
    }

    /// The same where what is printed is no text.
    pub fn output_with_input(&self, line: &str, input: &[u8]) -> Output {
        let words: Vec<&str> = line.split_whitespace().collect();
        let mut child = self.command(&words).stdin(Stdio::piped()).spawn().expect("desk runs");
        let mut stdin = child.stdin.take().expect("a pipe");
        let input = input.to_vec();
        // Beside the reading: the program may print before it has read all. It may also end without reading any.
        let writer = std::thread::spawn(move || stdin.write_all(&input));
        let output = child.wait_with_output().expect("desk ends");
        let _ = writer.join().expect("the writer ends");
        output
    }

    /// Runs a line of the shell in the folder, in which `desk` is the program.
    pub fn shell(&self, line: &str) -> Ran {
        let mut command = Command::new("sh");
        command.arg("-c").arg(format!("desk() {{ '{}' \"$@\"; }}\n{line}", env!("CARGO_BIN_EXE_desk"))).current_dir(&self.0);
        Ran::of(command.stdin(Stdio::null()).output().expect("the shell runs"))
    }
}

impl Drop for Folder {
    fn drop(&mut self) {
        let _ = fs::remove_dir_all(&self.0);
    }
}

/// `desk` in any folder, with nothing to read and both of its outputs in pipes.
fn command_in(folder: &Path, words: &[&str]) -> Command {
    let mut command = Command::new(env!("CARGO_BIN_EXE_desk"));
    command.args(words).current_dir(folder).stdin(Stdio::null()).stdout(Stdio::piped()).stderr(Stdio::piped());
    command
}

/// Runs `desk` in a folder that stays, with the words of a line.
pub fn desk_in(folder: &Path, line: &str) -> Ran {
    Ran::of(command_in(folder, &line.split_whitespace().collect::<Vec<&str>>()).output().expect("desk runs"))
}

/// What a child that was started printed, once it has ended.
pub fn ended(child: Child) -> Ran {
    Ran::of(child.wait_with_output().expect("desk ends"))
}

pub fn repository() -> PathBuf {
    Path::new(env!("CARGO_MANIFEST_DIR")).join("../..")
}

pub fn examples() -> PathBuf {
    repository().join("examples")
}

/// A word as records write it.
pub fn hexadecimal(word: u16) -> String {
    format!("{word:04X}H")
}
