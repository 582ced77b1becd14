//! Files are read whole, up to a limit and one byte more, which is enough for the check to see that they are too long. The name `-` is
//! standard input.

use super::{misuse, names, streams, Misuse};
use bleiwurzel::finding::{Finding, Length};
use std::ffi::OsStr;
use std::fs::File;
use std::io::{ErrorKind, Read};

/// The name that stands for standard input, or for standard output where something is written.
pub const STANDARD: &str = "-";

/// What was read of a file; by default of no file at all.
#[derive(Default)]
pub struct Contents {
    pub bytes: Vec<u8>,
    pub length: Length,
}

/// How a file is read: its name, the limit, what it holds, the command.
pub type Reader = fn(&OsStr, u64, &str, &'static str) -> Result<Contents, Misuse>;

impl Contents {
    /// The finding about a file that is refused for its length where it goes on.
    pub fn or_more(&self, finding: Finding) -> Finding {
        if self.length.more {
            return finding.or_more();
        }
        finding
    }
}

/// The bytes of a file, at most `limit` + 1 of them. `what` says what the file holds.
pub fn read(path: &OsStr, limit: u64, what: &str, help: &'static str) -> Result<Contents, Misuse> {
    let mut bytes = Vec::new();
    let read = open(path).and_then(|file| file.take(limit.saturating_add(1)).read_to_end(&mut bytes));
    read.or_else(|error| unreadable(path, &error, what, help))?;
    let length = Length { bytes: bytes.len() as u64, more: bytes.len() as u64 > limit };
    Ok(Contents { bytes, length })
}

/// A file for reading, or standard input.
pub fn open(path: &OsStr) -> std::io::Result<Box<dyn Read>> {
    if path == STANDARD {
        streams::need_open(streams::INPUT)?;
        return Ok(Box::new(std::io::stdin().lock()));
    }
    Ok(Box::new(File::open(path)?))
}

/// What to do where a file cannot be read.
pub fn unreadable<T>(path: &OsStr, error: &std::io::Error, what: &str, help: &'static str) -> Result<T, Misuse> {
    let name = shown(path);
    match error.kind() {
        ErrorKind::NotFound => misuse(help, format!("there is no file {name} for {what}; look at the path")),
        ErrorKind::PermissionDenied => misuse(help, format!("{name} for {what} may not be read; look at its permissions")),
        _ => misuse(help, format!("cannot read {name} for {what}: {error}")),
    }
}

/// The name of a file that is read, in quotes, or what it stands for.
pub fn shown(path: &OsStr) -> String {
    if path == STANDARD {
        return "standard input".to_string();
    }
    format!("'{}'", names::shown(path))
}
