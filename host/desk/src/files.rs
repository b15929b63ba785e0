//! Files that are written whole or not at all, and never over a file that is read; and what is read of a file by its size or its beginning.

use crate::fault::Fault;
use std::fs::{self, File, OpenOptions};
use std::io::{self, BufRead, ErrorKind, Read, Seek, SeekFrom, Write};
use std::os::unix::fs::MetadataExt;
use std::path::{Path, PathBuf};

/// Whether a name is that of standard input or output.
pub fn is_standard(file: &Path) -> bool {
    file.as_os_str() == "-"
}

/// A file under another name beside its target, which takes the target's place when it is complete. Dropped before that, it is gone, and the old
/// file is as it was.
pub struct NewFile {
    file: File,
    beside: PathBuf,
    target: PathBuf,
    /// As it was given, for messages.
    path: PathBuf,
}

impl NewFile {
    pub fn create(path: &Path) -> Result<NewFile, Fault> {
        let failed = |error: io::Error| Fault::of_file(path, "write", &error);
        // A link to a file stays a link: the file that it names is replaced.
        let target = fs::canonicalize(path).unwrap_or_else(|_| path.to_path_buf());
        let old = may_be_replaced(&target).map_err(failed)?;
        let (file, beside) = new_file_beside(&target).map_err(failed)?;
        let new = NewFile { file, beside, target, path: path.to_path_buf() };
        old.map_or(Ok(()), |permissions| new.file.set_permissions(permissions)).map_err(failed)?;
        Ok(new)
    }

    /// The file is complete.
    pub fn finish(self) -> Result<(), Fault> {
        let finished = self.file.sync_all().and_then(|()| fs::rename(&self.beside, &self.target));
        finished.map_err(|error| self.fault(&error))
    }

    pub fn fault(&self, error: &io::Error) -> Fault {
        Fault::of_file(&self.path, "write", error)
    }
}

impl Drop for NewFile {
    fn drop(&mut self) {
        // After `finish` nothing stands there any more; what is told is the first error, whether or not this one fails too.
        let _ = fs::remove_file(&self.beside);
    }
}

impl Write for NewFile {
    fn write(&mut self, bytes: &[u8]) -> io::Result<usize> {
        self.file.write(bytes)
    }

    fn flush(&mut self) -> io::Result<()> {
        self.file.flush()
    }
}

impl Seek for NewFile {
    fn seek(&mut self, to: SeekFrom) -> io::Result<u64> {
        self.file.seek(to)
    }
}

/// Writes a file whose bytes are at hand.
pub fn write_whole(path: &Path, bytes: &[u8]) -> Result<(), Fault> {
    let mut file = NewFile::create(path)?;
    file.write_all(bytes).map_err(|error| file.fault(&error))?;
    file.finish()
}

/// All bytes of an input, if there are at most so many; `file` is its name in faults, `expected` what never has more.
pub fn read_at_most(most: u64, file: &Path, input: impl Read, expected: &str) -> Result<Vec<u8>, Fault> {
    let mut bytes = Vec::new();
    let read = input.take(most + 1).read_to_end(&mut bytes).map_err(|error| Fault::of_file(file, "read", &error))?;
    match read as u64 > most {
        true => Err(Fault::bad(format!("{}: more than {most} bytes: expected {expected}", file.display()))),
        false => Ok(bytes),
    }
}

/// What stands first in an input, which stays there to be read; nothing of an empty one.
pub fn first_bytes(input: &mut impl BufRead) -> io::Result<&[u8]> {
    loop {
        match input.fill_buf() {
            Err(error) if error.kind() == ErrorKind::Interrupted => continue,
            Err(error) => return Err(error),
            Ok(_) => return input.fill_buf(),
        }
    }
}

/// No file that is to be written is one that is read, or another that is written.
pub fn replace_no_input(outputs: &[&Path], inputs: &[PathBuf]) -> Result<(), Fault> {
    for (at, output) in outputs.iter().enumerate() {
        if let Some(input) = inputs.iter().find(|input| is_same(output, input)) {
            return Err(Fault::bad(format!(
                "{}: would replace {}, which is read: expected another file",
                output.display(),
                input.display()
            )));
        }
        if outputs.iter().skip(at + 1).any(|other| is_same(output, other)) {
            return Err(Fault::bad(format!("{}: to be written twice: expected two files", output.display())));
        }
    }
    Ok(())
}

/// Whether two paths lead to one file, by whatever names or links, or by a redirection.
fn is_same(one: &Path, other: &Path) -> bool {
    let other = if is_standard(other) { Path::new("/dev/stdin") } else { other };
    match (fs::metadata(one), fs::metadata(other)) {
        (Ok(one), Ok(other)) => (one.dev(), one.ino()) == (other.dev(), other.ino()),
        _ => placed(one) == placed(other),
    }
}

/// A path with its folder's own name, for a file that may not be there yet.
fn placed(path: &Path) -> PathBuf {
    let folder = path.parent().filter(|folder| !folder.as_os_str().is_empty()).unwrap_or(Path::new("."));
    fs::canonicalize(folder).map_or_else(|_| path.to_path_buf(), |folder| folder.join(path.file_name().unwrap_or_default()))
}

/// The permissions of the old file, if there is one. A folder, a device or a file that is not to be written is left alone.
fn may_be_replaced(target: &Path) -> io::Result<Option<fs::Permissions>> {
    let old = match fs::metadata(target) {
        Err(error) if error.kind() == ErrorKind::NotFound => return Ok(None),
        old => old?,
    };
    if !old.is_file() {
        return Err(io::Error::new(ErrorKind::InvalidInput, "it is not a file"));
    }
    if old.permissions().readonly() {
        return Err(io::Error::new(ErrorKind::PermissionDenied, "it is for reading only"));
    }
    Ok(Some(old.permissions()))
}

/// A new file in the target's folder, under a name that nothing there has.
fn new_file_beside(target: &Path) -> io::Result<(File, PathBuf)> {
    let name = target.file_name().ok_or_else(|| io::Error::new(ErrorKind::InvalidInput, "it is not the name of a file"))?;
    for attempt in 0..1000 {
        let mut beside = std::ffi::OsString::from(".");
        beside.push(name);
        beside.push(format!(".{}-{attempt}", std::process::id()));
        let beside = target.with_file_name(beside);
        match OpenOptions::new().write(true).create_new(true).open(&beside) {
            Err(error) if error.kind() == ErrorKind::AlreadyExists => continue,
            file => return Ok((file?, beside)),
        }
    }
    Err(io::Error::new(ErrorKind::AlreadyExists, "too many unfinished files beside it"))
}

#[cfg(test)]
mod tests {
    use super::*;

    fn folder(name: &str) -> PathBuf {
        let folder = std::env::temp_dir().join(format!("desk-files-{}-{name}", std::process::id()));
        fs::create_dir_all(&folder).unwrap();
        folder
    }

    fn names(folder: &Path) -> Vec<String> {
        fs::read_dir(folder).unwrap().map(|entry| entry.unwrap().file_name().into_string().unwrap()).collect()
    }

    #[test]
    fn a_file_is_made_and_replaced() {
        let folder = folder("replaced");
        let file = folder.join("track.wav");
        for bytes in [&b"first"[..], b"", b"and another"] {
            write_whole(&file, bytes).unwrap();
            assert_eq!(fs::read(&file).unwrap(), bytes);
        }
        assert_eq!(names(&folder), ["track.wav"]);
        fs::remove_dir_all(folder).unwrap();
    }

    #[test]
    fn an_unfinished_file_leaves_the_old_one() {
        let folder = folder("unfinished");
        let file = folder.join("track.wav");
        fs::write(&file, b"kept").unwrap();
        let mut new = NewFile::create(&file).unwrap();
        new.write_all(b"half").unwrap();
        assert_eq!(names(&folder).len(), 2);
        drop(new);
        assert_eq!((names(&folder), fs::read(&file).unwrap()), (vec!["track.wav".to_string()], b"kept".to_vec()));
        fs::remove_dir_all(folder).unwrap();
    }

    #[test]
    fn a_file_that_is_read_is_not_replaced_by_whatever_name() {
        let folder = folder("inputs");
        let (read, link, hard) = (folder.join("read"), folder.join("link"), folder.join("hard"));
        fs::write(&read, b"read").unwrap();
        std::os::unix::fs::symlink("read", &link).unwrap();
        fs::hard_link(&read, &hard).unwrap();
        let inputs = [folder.join("none"), read.clone()];
        for output in [&read, &link, &hard, &folder.join("./read"), &folder.join("../").join(folder.file_name().unwrap()).join("none")] {
            assert!(replace_no_input(&[output], &inputs).is_err(), "{}", output.display());
        }
        let (new, other) = (folder.join("new"), folder.join("other"));
        assert_eq!(replace_no_input(&[&new, &other], &inputs), Ok(()));
        assert!(replace_no_input(&[&new, &folder.join("./new")], &inputs).is_err());
        fs::remove_dir_all(folder).unwrap();
    }

    #[test]
    fn nothing_is_left_where_it_cannot_be_written() {
        let folder = folder("refused");
        let (inside, kept) = (folder.join("inside"), folder.join("kept.wav"));
        fs::create_dir(&inside).unwrap();
        fs::write(&kept, b"kept").unwrap();
        let mut permissions = fs::metadata(&kept).unwrap().permissions();
        permissions.set_readonly(true);
        fs::set_permissions(&kept, permissions).unwrap();
        for path in [&inside, &kept, &folder.join("none/track.wav"), &folder.join(".."), &kept.join("track.wav")] {
            let fault = write_whole(path, b"other").unwrap_err();
            assert!(fault.message.starts_with(&format!("{}: cannot write: ", path.display())), "{fault}");
        }
        assert_eq!(fs::read(&kept).unwrap(), b"kept");
        let mut left = names(&folder);
        left.sort();
        assert_eq!(left, ["inside", "kept.wav"]);
        fs::remove_dir_all(folder).unwrap();
    }
}
