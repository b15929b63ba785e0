//! The command that makes of another sound file one that the desk takes.

use crate::files::is_standard;
use std::path::Path;

/// The command that converts a file to the form that the desk takes.
pub fn by_sox(file: &Path) -> String {
    let form = "-b 16 -e signed-integer -c 1";
    if is_standard(file) {
        return format!("sox -t wav - {form} -t wav -");
    }
    let mut name = file.file_stem().unwrap_or_default().to_os_string();
    name.push("-16.wav");
    format!("sox {} {form} {}", shell_word(file), shell_word(&file.with_file_name(name)))
}

/// A file name as a shell and a command after it take it for one.
fn shell_word(file: &Path) -> String {
    let name = file.to_string_lossy();
    let name = if name.starts_with('-') { format!("./{name}") } else { name.into_owned() };
    let is_plain = |letter: char| letter.is_alphanumeric() || "_-./+:,@%".contains(letter);
    if name.chars().all(is_plain) {
        name
    } else {
        format!("'{}'", name.replace('\'', r"'\''"))
    }
}

#[cfg(test)]
mod tests {
    use super::*;

    #[test]
    fn a_command_converts_a_file_beside_it() {
        let converted = |file: &str| by_sox(Path::new(file));
        assert_eq!(converted("booth.wav"), "sox booth.wav -b 16 -e signed-integer -c 1 booth-16.wav");
        assert_eq!(converted("day 1/it's.wav"), r"sox 'day 1/it'\''s.wav' -b 16 -e signed-integer -c 1 'day 1/it'\''s-16.wav'");
        assert_eq!(converted("/a/kabína"), "sox /a/kabína -b 16 -e signed-integer -c 1 /a/kabína-16.wav");
        assert_eq!(converted("-b.wav"), "sox ./-b.wav -b 16 -e signed-integer -c 1 ./-b-16.wav");
        assert_eq!(converted("~$(x).WAV"), "sox '~$(x).WAV' -b 16 -e signed-integer -c 1 '~$(x)-16.wav'");
        assert_eq!(converted("-"), "sox -t wav - -b 16 -e signed-integer -c 1 -t wav -");
    }
}
