//! The words behind a command: flags with a value, flags without one, and other words. A word may be any bytes; `--` ends the flags, and `-`
//! is no flag but the name of standard input or output.

use super::{files, misuse, names, Misuse};
use std::ffi::{OsStr, OsString};
use std::os::unix::ffi::{OsStrExt, OsStringExt};

pub struct Args {
    help: &'static str,
    values: Vec<(String, OsString)>,
    plain: Vec<String>,
    pub words: Vec<OsString>,
}

/// Reads the words. `help` is the command they belong to.
pub fn parse(words: Vec<OsString>, help: &'static str, valued: &[&str], plain: &[&str]) -> Result<Args, Misuse> {
    let mut args = Args { help, values: Vec::new(), plain: Vec::new(), words: Vec::new() };
    let mut words = words.into_iter();
    while let Some(word) = words.next() {
        if word == "--" {
            args.words.extend(words);
            break;
        }
        if !word.as_bytes().starts_with(b"-") || word == files::STANDARD {
            args.words.push(word);
            continue;
        }
        let (name, joined) = split(word);
        if name == HELP || plain.contains(&name.as_str()) {
            if joined.is_some() {
                return misuse(help, format!("{name} takes no value; leave out what follows ="));
            }
            args.plain.push(name);
        } else if valued.contains(&name.as_str()) {
            if name != RESERVED && args.value(&name).is_some() {
                return misuse(help, format!("{name} is given twice; give it once"));
            }
            match joined.or_else(|| words.next()) {
                Some(value) => args.values.push((name, value)),
                None => return misuse(help, format!("a value is missing after {name}")),
            }
        } else {
            let known: Vec<&str> = valued.iter().chain(plain).copied().collect();
            let name = names::shown_text(&name);
            return misuse(help, format!("'{help}' has no flag {name}; it has {}", known.join(", ")));
        }
    }
    args.one_input()?;
    Ok(args)
}

/// The name of a flag, of `-h` and `-o` the long one, and the value that is joined to it by `=`.
fn split(word: OsString) -> (String, Option<OsString>) {
    let bytes = word.as_bytes();
    let end = bytes.iter().position(|byte| *byte == b'=');
    let name = match &bytes[..end.unwrap_or(bytes.len())] {
        b"-h" => HELP.to_string(),
        b"-o" => OUTPUT.to_string(),
        name => String::from_utf8_lossy(name).into_owned(),
    };
    (name, end.map(|end| OsString::from_vec(bytes[end + 1..].to_vec())))
}

impl Args {
    pub fn value(&self, name: &str) -> Option<&OsStr> {
        self.values.iter().find(|(given, _)| given == name).map(|(_, value)| value.as_os_str())
    }

    /// All values of a flag that may be given more than once.
    pub fn values(&self, name: &str) -> Vec<&OsStr> {
        self.values.iter().filter(|(given, _)| given == name).map(|(_, value)| value.as_os_str()).collect()
    }

    pub fn has(&self, name: &str) -> bool {
        self.plain.iter().any(|given| given == name)
    }

    /// The flags among these that are not given.
    pub fn missing(&self, names: &[&'static str]) -> Vec<&'static str> {
        names.iter().copied().filter(|name| self.value(name).is_none()).collect()
    }

    /// Fails where several files are to come from standard input, which can be read once. Some flags have no file that is read.
    fn one_input(&self) -> Result<(), Misuse> {
        let read = |(name, value): &&(String, OsString)| {
            value == files::STANDARD && ![OUTPUT, RECORD, RESERVED].contains(&name.as_str())
        };
        let flags: Vec<&str> = self.values.iter().filter(read).map(|(name, _)| name.as_str()).collect();
        if flags.len() > 1 {
            return misuse(self.help, format!("{} are all -, and standard input is one file; name the others", flags.join(", ")));
        }
        Ok(())
    }

    /// Fails where there are words that are no flags; `flag` is one that such a word may be meant for.
    pub fn no_words(&self, flag: &str) -> Result<(), Misuse> {
        match self.words.first() {
            None => Ok(()),
            Some(word) => {
                let (name, word) = (names::shown(word), names::quoted(word));
                misuse(self.help, format!("'{name}' stands alone; name each file with its flag, as {flag} {word}"))
            }
        }
    }

    /// The one word that is no flag.
    pub fn one_word(&self, what: &str) -> Result<&OsStr, Misuse> {
        match self.words.as_slice() {
            [word] => Ok(word),
            [] => misuse(self.help, format!("{what} is missing: {} FILE", self.help)),
            _ => misuse(self.help, format!("there are {} files; give one: {} FILE", self.words.len(), self.help)),
        }
    }
}

/// The flags whose files are written: what a command makes, and the policy record that goes with a policy file.
pub const OUTPUT: &str = "--output";
pub const RECORD: &str = "--record";
/// The one flag that may be given more than once: a reserved range of the platform.
pub const RESERVED: &str = "--reserved";
/// The flag that every command has.
pub const HELP: &str = "--help";
