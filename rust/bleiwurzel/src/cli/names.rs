//! File names and other words of a caller, which may be any bytes: shown to people, or quoted for a shell. What is shown has no control
//! characters, so that a name cannot move the cursor or hide the rest of a line.

use std::ffi::OsStr;
use std::os::unix::ffi::OsStrExt;

/// A name as people read it.
pub fn shown(name: &OsStr) -> String {
    shown_text(&name.to_string_lossy())
}

/// The same for a text.
pub fn shown_text(text: &str) -> String {
    let character = |c: char| match c {
        '\'' | '"' | '\\' => c.to_string(),
        c => c.escape_debug().to_string(),
    };
    text.chars().map(character).collect()
}

/// The most characters of a word that are shown.
const SHOWN: usize = 80;

/// The same for a word that may be of any length, cut where it is long.
pub fn shown_front(text: &str) -> String {
    match text.char_indices().nth(SHOWN) {
        Some((end, _)) => shown_text(&text[..end]) + "..",
        None => shown_text(text),
    }
}

/// A name as one word for a shell: as it stands where no character of it means something there, in quotes else. What cannot be shown is
/// written in the form `$'\n'` of bash.
pub fn quoted(name: &OsStr) -> String {
    let bytes = name.as_bytes();
    let plain = |byte: &u8| byte.is_ascii_alphanumeric() || b"-_./,:@%+".contains(byte);
    if !bytes.is_empty() && bytes.iter().all(plain) {
        return name.to_string_lossy().into_owned();
    }
    match name.to_str() {
        Some(text) if shown_text(text) == text => format!("'{}'", text.replace('\'', "'\\''")),
        _ => format!("$'{}'", bytes.iter().map(|byte| escaped(*byte)).collect::<String>()),
    }
}

fn escaped(byte: u8) -> String {
    match byte {
        b'\'' | b'\\' => format!("\\{}", char::from(byte)),
        b' '..=b'~' => char::from(byte).to_string(),
        _ => format!("\\{byte:03o}"),
    }
}

#[cfg(test)]
mod tests {
    use super::*;

    #[test]
    fn shown_names() {
        for (name, expected) in [
            (&b"host 17's.cap"[..], "host 17's.cap"),
            (b"a\x1b[2Jb\nc\x7f", "a\\u{1b}[2Jb\\nc\\u{7f}"),
            ("é\u{202e}x\u{9b}".as_bytes(), "é\\u{202e}x\\u{9b}"),
            (b"a\xffb", "a\u{fffd}b"),
        ] {
            assert_eq!(shown(OsStr::from_bytes(name)), expected);
        }
    }

    #[test]
    fn shown_fronts() {
        for (text, expected) in [
            ("", String::new()),
            (&"é".repeat(80), "é".repeat(80)),
            (&"é".repeat(81), "é".repeat(80) + ".."),
            (&"\n".repeat(1000), "\\n".repeat(80) + ".."),
        ] {
            assert_eq!(shown_front(text), expected);
        }
    }

    /// Bash gives back every name that is quoted.
    #[test]
    fn a_shell_reads_the_name_again() {
        for name in [
            &b"plain-1.cap"[..],
            b"",
            b"two words",
            b"it's",
            b"$(x) `y` \\ \"z\" *",
            b"~",
            b"a\nb\tc\x1b1",
            b"\xff\xfe'\\9",
            "é".as_bytes(),
        ] {
            let word = quoted(OsStr::from_bytes(name));
            let script = format!("printf %s {word}");
            let output = std::process::Command::new("bash").args(["-c", &script]).output().expect("bash runs");
            assert_eq!(output.stdout, name, "{script}");
            assert!(!word.chars().any(char::is_control), "{word:?}");
        }
    }
}
