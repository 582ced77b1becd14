//! The words behind the first of a line, and their values.

use super::keys::DIGEST;
use crate::cli::{names, platform};
use bleiwurzel::policy;

/// The most lists; a record has a counter for each.
const LISTS: usize = policy::MOST_LISTS as usize;

/// The words behind the first of a line.
pub struct Words<'a>(pub Vec<(&'a str, &'a str)>);

impl<'a> Words<'a> {
    /// Reads the words; all keys are of these, and only a digest is given several times.
    pub fn of(words: impl Iterator<Item = &'a str>, (line, keys): (&str, &[&str])) -> Result<Self, String> {
        let mut read = Words(Vec::new());
        for word in words {
            let (key, value) = word.split_once('=').ok_or_else(|| {
                format!("'{}' is not of the form key=value; nothing here has blanks in it, no name of a file either", shown(word))
            })?;
            if !keys.contains(&key) {
                return Err(format!("a line '{line}' has no key '{}'; its keys are {}", shown(key), keys.join(", ")));
            }
            if key != DIGEST && read.one(key).is_some() {
                return Err(twice(key));
            }
            read.0.push((key, value));
        }
        Ok(read)
    }

    pub fn one(&self, key: &str) -> Option<&'a str> {
        self.0.iter().find(|(given, _)| *given == key).map(|(_, value)| *value)
    }

    /// Gives a field its value where the key is given.
    pub fn set<T>(&self, key: &str, field: &mut T, read: impl Fn(&str) -> Result<T, String>) -> Result<(), String> {
        if let Some(value) = self.one(key) {
            *field = read(value).map_err(|message| format!("{key}: {message}"))?;
        }
        Ok(())
    }
}

pub fn twice(key: &str) -> String {
    format!("'{key}' is given twice; give it once")
}

/// A number that has at most the bits of its field.
pub fn number<T: TryFrom<u64>>(text: &str) -> Result<T, String> {
    let bits = 8 * std::mem::size_of::<T>() as u32;
    let wide = || format!("'{}' does not fit into {bits} bits", shown(text));
    platform::number(text, bits).and_then(|number| T::try_from(number).map_err(|_| wide()))
}

/// A number for each list; those that are left out are 0.
pub fn counters(text: &str) -> Result<[u16; LISTS], String> {
    let given = text.split(',').map(number).collect::<Result<Vec<u16>, String>>()?;
    let mut counters = [0; LISTS];
    match counters.get_mut(..given.len()) {
        Some(front) => front.copy_from_slice(&given),
        None => return Err(format!("there are {} counters; there is one for each of at most {LISTS} lists", given.len())),
    }
    Ok(counters)
}

pub fn policy_type(text: &str) -> Result<u8, String> {
    match text {
        "list" => Ok(0),
        "any" => Ok(1),
        _ => number(text).map_err(|message| format!("{message}; or write list or any")),
    }
}

/// An algorithm by its name, or by its number, which is not judged here.
pub fn hash_alg(text: &str) -> Result<u16, String> {
    match policy::ALGORITHMS.iter().find(|(known, _, _)| algorithm_name(*known) == text) {
        Some((known, _, _)) => Ok(*known),
        None => number(text).map_err(|message| format!("{message}; or write {}", algorithm_names())),
    }
}

/// The name of an algorithm, or its number where it has none.
pub fn algorithm_name(hash_alg: u16) -> String {
    match policy::algorithm(hash_alg) {
        Some((_, name)) => name.to_lowercase().replace('_', "-"),
        None => format!("{hash_alg:#06x}"),
    }
}

/// All names, for people.
pub fn algorithm_names() -> String {
    let [others @ .., last] = policy::ALGORITHMS.map(|(hash_alg, _, _)| algorithm_name(hash_alg));
    format!("{} or {last}", others.join(", "))
}

/// A word of a description as people read it. A word may be as long as the text, so it is cut.
pub fn shown(text: &str) -> String {
    names::shown_front(text)
}

/// Bytes as hexadecimal digits, two for one.
pub fn hexadecimal(text: &str) -> Result<Vec<u8>, String> {
    let wrong = || {
        format!(
            "'{}' is no string of bytes; write two hexadecimal digits for each byte, without 0x, or @ and the name of a file",
            shown(text)
        )
    };
    if text.len() % 2 != 0 || !text.bytes().all(|digit| digit.is_ascii_hexdigit()) {
        return Err(wrong());
    }
    let byte = |at: usize| u8::from_str_radix(&text[at..at + 2], 16).map_err(|_| wrong());
    (0..text.len()).step_by(2).map(byte).collect()
}
