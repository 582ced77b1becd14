//! An input that is damaged in place and repaired, so that an image of many megabytes is not copied for each damage. Each change is kept until the
//! repair, with what stood there before; so a difference can be written out, too.

use crate::aims::{self, Aims};
use inputs::{Parts, Platform};
use samples::Image;
use twin::capture::Layout;

/// The numbers of the parts.
pub const WINDOW: usize = 0;
pub const HEAP: usize = 1;
pub const SINIT: usize = 2;
pub const RECORD: usize = 3;
pub const STM: usize = 4;
pub const PARTS: usize = 5;
/// The only part of a capture.
pub const CAPTURE: usize = 0;
/// What the capture program lends.
pub const CAPTURE_PLACES: usize = 4096;

#[derive(Clone, Copy, Debug, PartialEq, Eq)]
pub enum Form {
    /// The bytes of a capture are handed over, as one part.
    Capture,
    Parts,
}

/// How often copies of a source are made: so many in a round, but only in one of so many rounds.
#[derive(Clone, Copy)]
pub struct Turns {
    pub times: usize,
    pub every: usize,
}

pub struct Subject {
    pub name: String,
    pub form: Form,
    pub bytes: Vec<Vec<u8>>,
    /// It stands in the bytes of a capture, and is not used there.
    pub platform: Platform,
    pub places: usize,
    pub turns: Turns,
    /// Where the fields stand that are read of it, before any damage.
    pub aims: Aims,
    pub changes: Vec<Change>,
    source: Source,
}

/// Bytes and platform before any damage, by which it is seen whether a copy differs and whether a repair took back all. It is copied once.
struct Source {
    bytes: Vec<Vec<u8>>,
    platform: Platform,
}

/// What was done to a part or to the platform, with what was there before.
pub enum Change {
    Bytes { part: usize, at: usize, old: Vec<u8> },
    Cut { part: usize, old: Vec<u8> },
    Added { part: usize, count: usize },
    Part { part: usize, old: Vec<u8>, from: String },
    Platform(Box<Platform>),
}

/// The parts of an input, its platform, and for each part which bytes of the subject hold it: their number, and the offset there.
pub struct Seen<'a> {
    pub parts: Parts<'a>,
    pub platform: Platform,
    pub held: [(usize, usize); PARTS],
}

impl Subject {
    fn new(name: String, form: Form, bytes: Vec<Vec<u8>>, platform: Platform, places: usize, turns: Turns) -> Self {
        let (aims, source) = (Aims::default(), Source { bytes: bytes.clone(), platform });
        let mut subject = Subject { name, form, bytes, platform, places, turns, aims, changes: Vec::new(), source };
        subject.aims = aims::of(&subject);
        subject
    }

    pub fn of_capture(name: String, capture: Vec<u8>, turns: Turns) -> Self {
        Subject::new(name, Form::Capture, vec![capture], Platform::default(), CAPTURE_PLACES, turns)
    }

    pub fn of_parts(name: String, parts: &Parts, platform: &Platform, places: usize, turns: Turns) -> Self {
        let bytes = [parts.window, parts.heap, parts.sinit, parts.record, parts.stm].map(<[u8]>::to_vec);
        Subject::new(name, Form::Parts, bytes.to_vec(), *platform, places, turns)
    }

    pub fn of_image(name: &str, image: Image, places: usize, turns: Turns) -> Self {
        let bytes = vec![image.window, image.heap, image.sinit, image.record, image.stm];
        Subject::new(name.to_string(), Form::Parts, bytes, image.platform, places, turns)
    }

    /// Whether any byte or number is another one than in the source. Damages may change nothing, or take one another back. The window is compared last,
    /// since it is the longest part.
    pub fn differs(&self) -> bool {
        self.platform != self.source.platform || self.bytes.iter().rev().ne(self.source.bytes.iter().rev())
    }

    /// The parts as they are now; none of a capture that is no capture.
    pub fn seen(&self) -> Option<Seen<'_>> {
        if self.form == Form::Parts {
            let held = [WINDOW, HEAP, SINIT, RECORD, STM].map(|part| (part, 0));
            return Some(Seen { parts: self.parts(), platform: self.platform, held });
        }
        let capture = &self.bytes[CAPTURE];
        let (parts, platform) = twin::capture::split(capture).ok()?;
        let head = Layout::read(capture).ok()?.head();
        let heap = head + parts.window.len();
        let sinit = heap + parts.heap.len();
        let record = sinit + parts.sinit.len();
        let held = [head, heap, sinit, record, capture.len()].map(|at| (CAPTURE, at));
        Some(Seen { parts, platform, held })
    }

    /// The parts where the form is that of parts.
    pub fn parts(&self) -> Parts<'_> {
        let [window, heap, sinit, record, stm] = [WINDOW, HEAP, SINIT, RECORD, STM].map(|part| &self.bytes[part][..]);
        Parts { window, heap, sinit, record, stm }
    }

    /// Puts these bytes in the place of those that stand there. As many must be there.
    pub fn put(&mut self, part: usize, at: usize, new: &[u8]) {
        let place = &mut self.bytes[part][at..at + new.len()];
        let old = place.to_vec();
        place.copy_from_slice(new);
        self.changes.push(Change::Bytes { part, at, old });
    }

    /// Removes so many bytes, or all, at the end of a part.
    pub fn cut(&mut self, part: usize, count: usize) {
        let length = self.bytes[part].len().saturating_sub(count);
        let old = self.bytes[part].split_off(length);
        self.changes.push(Change::Cut { part, old });
    }

    /// Adds bytes at the end of a part.
    pub fn add(&mut self, part: usize, new: &[u8]) {
        self.bytes[part].extend_from_slice(new);
        self.changes.push(Change::Added { part, count: new.len() });
    }

    /// Puts a part of another source in the place of a whole part.
    pub fn put_part(&mut self, part: usize, new: &[u8], from: &str) {
        let old = std::mem::replace(&mut self.bytes[part], new.to_vec());
        self.changes.push(Change::Part { part, old, from: from.to_string() });
    }

    pub fn put_platform(&mut self, new: Platform) {
        self.changes.push(Change::Platform(Box::new(self.platform)));
        self.platform = new;
    }

    /// Takes back all changes, the last one first.
    pub fn repair(&mut self) {
        while let Some(change) = self.changes.pop() {
            match change {
                Change::Bytes { part, at, old } => self.bytes[part][at..at + old.len()].copy_from_slice(&old),
                Change::Cut { part, old } => self.bytes[part].extend_from_slice(&old),
                Change::Added { part, count } => {
                    let length = self.bytes[part].len() - count;
                    self.bytes[part].truncate(length);
                }
                Change::Part { part, old, .. } => self.bytes[part] = old,
                Change::Platform(old) => self.platform = *old,
            }
        }
    }

    /// The name of a part.
    pub fn part_name(&self, part: usize) -> &'static str {
        match self.form {
            Form::Capture => "capture",
            Form::Parts => ["window", "heap", "module", "record", "STM image"][part],
        }
    }
}

#[cfg(test)]
mod tests {
    use super::*;
    use samples::{image, Shape};

    #[test]
    fn a_repair_takes_back_all_changes_in_turn() {
        let image = image(&Shape::default());
        let mut subject = Subject::of_image("two pages", image.clone(), 2, Turns { times: 1, every: 1 });
        subject.put(HEAP, 3, &[1, 2, 3]);
        subject.cut(HEAP, 120);
        subject.put(HEAP, 3, &[9]);
        subject.add(HEAP, &[4; 7]);
        subject.cut(HEAP, 9);
        subject.put_part(HEAP, &[5; 3], "another");
        subject.put(HEAP, 0, &[6]);
        subject.cut(HEAP, 10);
        subject.put_platform(Platform::default());
        assert!(subject.bytes[HEAP].is_empty() && subject.platform != image.platform);
        subject.repair();
        assert!(subject.bytes[HEAP] == image.heap && subject.platform == image.platform);
        assert_eq!(subject.bytes[WINDOW], image.window);
    }

    #[test]
    fn a_copy_differs_by_a_byte_a_length_or_the_platform() {
        let image = image(&Shape::default());
        let mut subject = Subject::of_image("two pages", image.clone(), 2, Turns { times: 1, every: 1 });
        assert!(!subject.differs());
        for part in [WINDOW, HEAP, SINIT, RECORD] {
            let byte = subject.bytes[part][7];
            subject.put(part, 7, &[byte]);
            assert!(!subject.differs(), "{}: its own value", subject.part_name(part));
            subject.put(part, 7, &[!byte]);
            assert!(subject.differs(), "{}: another value", subject.part_name(part));
            subject.put(part, 7, &[byte]);
            assert!(!subject.differs(), "{}: the value again", subject.part_name(part));
        }
        subject.add(STM, &[0]);
        assert!(subject.differs());
        subject.cut(STM, 1);
        assert!(!subject.differs());
        subject.put_platform(Platform { revision: !image.platform.revision, ..image.platform });
        assert!(subject.differs());
        subject.repair();
        assert!(!subject.differs());
    }
}
