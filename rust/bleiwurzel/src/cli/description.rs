//! The text form of what a policy file is written from: a line for the record, for each list and for each element, of words `key=value`.
//! `help::POLICY_WRITE` says it to people.

mod keys;
mod printed;
mod words;

use super::files;
use bleiwurzel::policy::{self, Digests, ElementDescription, Launch, ListDescription, RecordFields};
use bleiwurzel::text::bytes;
use bleiwurzel::{sha256, MOST_PAGES, PAGE_SIZE};
use keys::*;
pub use printed::{lists_text, record_text};
use std::path::Path;
pub use words::algorithm_names;
use words::*;

/// What a text describes.
#[derive(Default)]
pub struct Described {
    pub fields: RecordFields,
    pub lists: Vec<ListDescription>,
    /// Of each list its line, and those of its elements.
    pub lines: Vec<(usize, Vec<ElementLine>)>,
}

/// Where an element stands.
pub struct ElementLine {
    pub number: usize,
    /// Whether its body goes on behind what was read of it, for which no policy file has place.
    pub more: bool,
}

/// Where the bodies have more bytes than this, the file is far too long already, and of those in files only a byte each is read.
const ENOUGH_BODIES: usize = 1 << 20;
/// What some editors put before a text of UTF-8.
const BYTE_ORDER_MARK: char = '\u{feff}';
/// The most bytes of a path that Linux takes.
const LONGEST_PATH: usize = 4095;

/// Reads a text; names of files in it count from this folder. Gives the line that is wrong, and what to do.
pub fn read(text: &str, folder: &Path, help: &'static str) -> Result<Described, (usize, String)> {
    let text = text.strip_prefix(BYTE_ORDER_MARK).unwrap_or(text);
    let mut reader = Reader { folder, help, described: Described::default(), given: Vec::new(), bodies: 0 };
    for (index, line) in text.lines().enumerate() {
        reader.line(index + 1, line).map_err(|message| (index + 1, message))?;
    }
    Ok(reader.described)
}

struct Reader<'a> {
    folder: &'a Path,
    help: &'static str,
    described: Described,
    /// The keys of the record so far.
    given: Vec<&'a str>,
    /// The bytes of all bodies so far.
    bodies: usize,
}

impl<'a> Reader<'a> {
    fn line(&mut self, number: usize, line: &'a str) -> Result<(), String> {
        // A comment begins with a word that begins so; within a word the character is one like others.
        let mut words = line.split_whitespace().take_while(|word| !word.starts_with('#'));
        match words.next() {
            None => Ok(()),
            Some("record") => self.record(&Words::of(words, RECORD)?),
            Some("list") => self.list(number, &Words::of(words, LIST)?),
            Some("launch") => self.launch(&Words::of(words, LAUNCH)?).and_then(|element| self.push(number, element, false)),
            Some("custom") => {
                self.custom(&Words::of(words, CUSTOM)?).and_then(|(element, more)| self.push(number, element, more))
            }
            Some(other) => {
                let known = [RECORD, LIST, LAUNCH].map(|(word, _)| word).join(", ");
                Err(format!("no line begins with '{}'; lines begin with {known} or {}", shown(other), CUSTOM.0))
            }
        }
    }

    fn record(&mut self, words: &Words<'a>) -> Result<(), String> {
        for (key, _) in &words.0 {
            if self.given.contains(key) {
                return Err(twice(key));
            }
            self.given.push(key);
        }
        let fields = &mut self.described.fields;
        words.set(VERSION, &mut fields.version, number)?;
        words.set(HASH_ALG, &mut fields.hash_alg, hash_alg)?;
        words.set(TYPE, &mut fields.policy_type, policy_type)?;
        words.set(SINIT_MIN_VERSION, &mut fields.sinit_min_version, number)?;
        words.set(COUNTERS, &mut fields.counters, counters)?;
        words.set(CONTROL, &mut fields.control, number)?;
        words.set(MAX_SINIT_MIN_VERSION, &mut fields.max_sinit_min_version, number)?;
        words.set(RESERVED, &mut fields.reserved, number)?;
        words.set(LCP_HASH_ALG_MASK, &mut fields.lcp_hash_alg_mask, number)?;
        words.set(LCP_SIGN_ALG_MASK, &mut fields.lcp_sign_alg_mask, number)?;
        words.set(RESERVED2, &mut fields.reserved2, number)
    }

    fn list(&mut self, line: usize, words: &Words) -> Result<(), String> {
        let mut version = policy::LIST_VERSIONS[1];
        words.set(VERSION, &mut version, number)?;
        self.described.lists.push(ListDescription { version, elements: Vec::new() });
        self.described.lines.push((line, Vec::new()));
        Ok(())
    }

    /// Puts an element behind the others of the last list.
    fn push(&mut self, number: usize, element: ElementDescription, more: bool) -> Result<(), String> {
        self.bodies += element.body.len();
        match (self.described.lists.last_mut(), self.described.lines.last_mut()) {
            (Some(list), Some((_, lines))) => {
                list.elements.push(element);
                lines.push(ElementLine { number, more });
                Ok(())
            }
            _ => Err("an element stands before the first list; write a line 'list' before it".to_string()),
        }
    }

    fn launch(&self, words: &Words) -> Result<ElementDescription, String> {
        let (mut control, mut algorithm) = (0, policy::SHA256);
        let mut launch = Launch { sinit_min_version: 0, reserved: 0, digests: Digests { hash_alg: 0, count: 0 } };
        words.set(CONTROL, &mut control, number)?;
        words.set(SINIT_MIN_VERSION, &mut launch.sinit_min_version, number)?;
        words.set(RESERVED, &mut launch.reserved, number)?;
        words.set(HASH_ALG, &mut algorithm, hash_alg)?;
        let given: Vec<&str> = words.0.iter().filter(|(key, _)| *key == DIGEST).map(|(_, value)| *value).collect();
        let count = u16::try_from(given.len())
            .map_err(|_| format!("there are {} digests; an element has at most {}", given.len(), u16::MAX))?;
        launch.digests = Digests { hash_alg: algorithm, count };
        let digests = given.iter().map(|value| self.digest(algorithm, value)).collect::<Result<Vec<_>, _>>()?;
        Ok(ElementDescription::launch(control, &launch, &digests.concat()))
    }

    /// A custom element, and whether its body goes on.
    fn custom(&self, words: &Words) -> Result<(ElementDescription, bool), String> {
        let (mut control, mut body) = (0, (Vec::new(), false));
        words.set(CONTROL, &mut control, number)?;
        if words.one(BODY).is_none() {
            return Err(
                "body is missing; write body= and hexadecimal digits, none for an empty body, or @ and the name of a file"
                    .to_string(),
            );
        }
        // A byte more than a policy file has is enough for the library to see that the body is too long.
        let most = if self.bodies > ENOUGH_BODIES { 0 } else { policy::MOST as u64 };
        words.set(BODY, &mut body, |value| match value.strip_prefix('@') {
            Some(name) => self.file(name, most, "the body").map(|file| (file.bytes, file.length.more)),
            None => hexadecimal(value).map(|bytes| (bytes, false)),
        })?;
        let (body, more) = body;
        Ok((ElementDescription::custom(control, body), more))
    }

    /// A digest by its digits or, of SHA-256, by the file with the image.
    fn digest(&self, algorithm: u16, value: &str) -> Result<Vec<u8>, String> {
        if let Some(name) = value.strip_prefix('@') {
            if algorithm != policy::SHA256 {
                return Err(format!(
                    "digest: of an image only sha256 is worked out; write the digits of its {}",
                    algorithm_name(algorithm)
                ));
            }
            return self.image(name).map_err(|message| format!("digest: {message}"));
        }
        let digest = hexadecimal(value).map_err(|message| format!("digest: {message}"))?;
        match policy::algorithm(algorithm) {
            Some((length, _)) if length != digest.len() => Err(format!(
                "digest: '{}' has {}; one of {} has {length}, which are {} digits",
                shown(value),
                bytes(digest.len() as u64),
                algorithm_name(algorithm),
                2 * length
            )),
            _ => Ok(digest),
        }
    }

    /// SHA-256 of an image, which is what the check takes over its pages.
    fn image(&self, name: &str) -> Result<Vec<u8>, String> {
        let most = MOST_PAGES as u64 * PAGE_SIZE;
        let file = self.file(name, most, "the image")?;
        let length = file.length.bytes;
        if file.length.more {
            return Err(format!(
                "'{}' has over {most} bytes, and an image has at most {MOST_PAGES} pages of {PAGE_SIZE}",
                shown(name)
            ));
        }
        if twin::image::pages(length).is_err() {
            return Err(format!(
                "'{}' has {}, and an image is whole pages of {PAGE_SIZE} bytes, one at least; give the image's pages as they stand in memory",
                shown(name),
                bytes(length)
            ));
        }
        Ok(sha256(&file.bytes).to_vec())
    }

    fn file(&self, name: &str, limit: u64, what: &str) -> Result<files::Contents, String> {
        if name.len() > LONGEST_PATH {
            return Err(format!("'{}' is no name of a file: it has over {LONGEST_PATH} bytes", shown(name)));
        }
        files::read(self.folder.join(name).as_os_str(), limit, what, self.help).map_err(|misuse| misuse.message)
    }
}

#[cfg(test)]
mod tests {
    use super::*;

    /// Numbers that look random and are the same in each run.
    struct Sequence(u64);

    impl Sequence {
        fn next(&mut self, below: usize) -> usize {
            self.0 = self.0.wrapping_mul(6_364_136_223_846_793_005).wrapping_add(1_442_695_040_888_963_407);
            (self.0 >> 33) as usize % below
        }

        /// A text of which one to eight bytes are changed or dropped, or which is cut off.
        fn damaged(&mut self, text: &str) -> String {
            let mut bytes = text.as_bytes().to_vec();
            for _ in 0..1 + self.next(8) {
                let at = self.next(bytes.len());
                match self.next(9) {
                    0..=4 => bytes[at] = b" =#@,\n0x\xc3"[self.next(9)],
                    5..=7 if bytes.len() > 1 => drop(bytes.remove(at)),
                    _ => bytes.truncate(at + 1),
                }
            }
            String::from_utf8_lossy(&bytes).into_owned()
        }
    }

    /// A damaged text is read or not, and none makes the program fail.
    #[test]
    fn damaged_descriptions() {
        let text = "record version=0x0302 counters=1,2 type=list\nlist version=0x0201 # first\nlaunch hash-alg=1 digest=00\n\
                    launch hash-alg=0x2 control=7\ncustom body=00ff # \u{e9}\n";
        let mut sequence = Sequence(1);
        let (mut accepted, mut wrong) = (0, 0);
        for _ in 0..20_000 {
            match read(&sequence.damaged(text), Path::new("/nowhere"), "") {
                Ok(_) => accepted += 1,
                Err((line, message)) => {
                    wrong += 1;
                    assert!(line > 0 && !message.is_empty(), "{line}: {message}");
                }
            }
        }
        assert!(accepted > 100 && wrong > 100, "{accepted} accepted, {wrong} wrong");
    }
}
