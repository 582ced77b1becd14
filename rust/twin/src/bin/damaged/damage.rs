//! The damages, one to three for each copy: of bytes and numbers at the fields that are read, of the ends of parts, of the platform, and parts of another
//! source. After half of them the record's PolicyHash is set right again, so that a changed policy file gets as far as the rule which list permits.

use crate::aims::Stretch;
use crate::dice::Dice;
use crate::platform;
use crate::subject::{Form, Subject, CAPTURE, PARTS, RECORD};
use inputs::{RECORD_FIELDS, RECORD_LENGTH};
use std::panic::{catch_unwind, AssertUnwindSafe};
use twin::{heap, lists, policy};

/// The parts of a source, to be put into others.
pub struct Donor {
    pub name: String,
    pub bytes: Vec<Vec<u8>>,
}

/// The sources of which parts are taken, by their form.
pub struct Donors {
    pub captures: Vec<Donor>,
    pub parts: Vec<Donor>,
}

/// How often damages are drawn for a copy. Of an empty capture about one draw in twenty changes something.
const TRIES: usize = 1000;

/// Damages a source so that it differs. Damages may be void: a byte set to its own value, equal fields exchanged, or a place that was cut off before. They
/// are taken back then, and others are drawn.
pub fn damage(dice: &mut Dice, subject: &mut Subject, donors: &Donors) {
    for _ in 0..TRIES {
        draw(dice, subject, donors);
        if subject.differs() {
            return;
        }
        subject.repair();
    }
    panic!("of {TRIES} damages none changed anything of '{}'", subject.name);
}

/// One to three damages, most of them of fields.
fn draw(dice: &mut Dice, subject: &mut Subject, donors: &Donors) {
    for _ in 0..dice.one_of(&[1, 1, 1, 2, 2, 3]) {
        match dice.below(25) {
            0..=5 => flip(dice, subject),
            6..=9 => set_byte(dice, subject),
            10..=16 => set_number(dice, subject),
            17 => end_of_part(dice, subject),
            18..=20 => exchange(dice, subject),
            21 | 22 => platform::damage(dice, subject),
            23 => opposite(dice, subject),
            _ => other_part(dice, subject, donors),
        }
    }
    if dice.once_in(2) {
        set_policy_hash(subject);
    }
}

/// A place for a number of so many bytes. There is none where all parts are empty, or a stretch was cut.
fn aimed(dice: &mut Dice, subject: &Subject, width: usize) -> Option<(usize, usize)> {
    let stretch = subject.aims.choose(dice)?;
    aimed_in(dice, subject, &stretch, width)
}

/// The same in one stretch: mostly where a field of this width can begin.
fn aimed_in(dice: &mut Dice, subject: &Subject, stretch: &Stretch, width: usize) -> Option<(usize, usize)> {
    let offset = dice.below(stretch.length);
    let offset = if dice.once_in(4) { offset } else { offset - offset % width };
    let (part, at) = (stretch.part, stretch.at + offset);
    (at + width <= subject.bytes[part].len()).then_some((part, at))
}

fn number(subject: &Subject, (part, at): (usize, usize), width: usize) -> u64 {
    subject.bytes[part][at..at + width].iter().rev().fold(0, |number, byte| number << 8 | u64::from(*byte))
}

fn flip(dice: &mut Dice, subject: &mut Subject) {
    if let Some((part, at)) = aimed(dice, subject, 1) {
        let byte = subject.bytes[part][at] ^ 1 << dice.below(8);
        subject.put(part, at, &[byte]);
    }
}

fn set_byte(dice: &mut Dice, subject: &mut Subject) {
    if let Some((part, at)) = aimed(dice, subject, 1) {
        let drawn = dice.number() as u8;
        let byte = dice.one_of(&[0, 1, 2, 3, 7, 8, 0x0b, 0x10, 0x14, 0x7f, 0x80, 0xff, drawn, drawn]);
        subject.put(part, at, &[byte]);
    }
}

/// A number at one of its edges, beside what it was, or copied from another field.
fn set_number(dice: &mut Dice, subject: &mut Subject) {
    let width = dice.one_of(&[2, 4, 8]);
    let (place, other) = (aimed(dice, subject, width), aimed(dice, subject, width));
    if let Some((part, at)) = place {
        let old = number(subject, (part, at), width);
        let copied = other.map_or(0, |other| number(subject, other, width));
        let new = edge(dice, old, copied);
        subject.put(part, at, &new.to_le_bytes()[..width]);
    }
}

/// A number at an edge, beside the old one, or the one of another field. Of a short field only the low bytes are used.
pub fn edge(dice: &mut Dice, old: u64, copied: u64) -> u64 {
    match dice.below(10) {
        0 => 0,
        1 => 1,
        2 => u64::MAX,
        3 | 4 => old.wrapping_add(1),
        5 => old.wrapping_sub(1),
        6 => old.wrapping_add(4096),
        7 => old.wrapping_sub(4096),
        _ => copied,
    }
}

/// Makes one number of a stretch greater and another one less by as much, so that their sum stays or, with half of all values, wraps.
fn opposite(dice: &mut Dice, subject: &mut Subject) {
    let width = dice.one_of(&[2, 4, 4, 8]);
    let by = dice.one_of(&[1u64, 8, 64, 4096, 1 << (8 * width - 1)]);
    let places = subject.aims.choose(dice).and_then(|stretch| {
        let [one, other] = [(); 2].map(|()| aimed_in(dice, subject, &stretch, width));
        Some([(one?, by), (other?, by.wrapping_neg())])
    });
    for ((part, at), by) in places.into_iter().flatten() {
        let new = number(subject, (part, at), width).wrapping_add(by);
        subject.put(part, at, &new.to_le_bytes()[..width]);
    }
}

/// Removes bytes at the end of a part, or adds some.
fn end_of_part(dice: &mut Dice, subject: &mut Subject) {
    let part = dice.below(subject.bytes.len());
    let count = dice.one_of(&[1, 2, 8, 16, 64, 4096]);
    match dice.below(3) {
        0 => subject.cut(part, count),
        1 => subject.add(part, &vec![0; count]),
        _ => {
            let byte = dice.number() as u8;
            subject.add(part, &vec![byte; count]);
        }
    }
}

/// Exchanges two bytes or numbers.
fn exchange(dice: &mut Dice, subject: &mut Subject) {
    let width = dice.one_of(&[1, 2, 4, 8]);
    let (one, other) = (aimed(dice, subject, width), aimed(dice, subject, width));
    if let (Some(one), Some(other)) = (one, other) {
        let [first, second] = [one, other].map(|(part, at)| subject.bytes[part][at..at + width].to_vec());
        subject.put(one.0, one.1, &second);
        subject.put(other.0, other.1, &first);
    }
}

/// Puts a part of another source in the place of one. In a capture it is the bytes of one part that get those of another capture at the same offsets, as
/// far as both go, so that the lengths in its head still hold.
fn other_part(dice: &mut Dice, subject: &mut Subject, donors: &Donors) {
    let part = dice.below(PARTS);
    if subject.form == Form::Parts {
        let donor = &donors.parts[dice.below(donors.parts.len())];
        return subject.put_part(part, &donor.bytes[part], &donor.name);
    }
    let donor = &donors.captures[dice.below(donors.captures.len())].bytes[CAPTURE];
    let length = subject.bytes[CAPTURE].len().min(donor.len());
    let held = subject.seen().map_or([0; PARTS], |seen| seen.held.map(|(_, at)| at));
    let end = held.get(part + 1).map_or(length, |end| length.min(*end));
    if held[part] < end {
        subject.put(CAPTURE, held[part], &donor[held[part]..end]);
    }
}

/// Makes the record's PolicyHash that of the policy file, where there is a file of the grammar and a record with place for it.
fn set_policy_hash(subject: &mut Subject) {
    // Where the twin panics over the file, the comparison says so.
    let found = catch_unwind(AssertUnwindSafe(|| policy_hash(subject))).ok().flatten();
    if let Some((part, at, hash)) = found {
        if subject.bytes[part][at..at + hash.len()] != hash {
            subject.put(part, at, &hash);
        }
    }
}

/// The part and the offset of PolicyHash, and its value by the policy file.
fn policy_hash(subject: &Subject) -> Option<(usize, usize, [u8; 32])> {
    let seen = subject.seen()?;
    let asked = heap::read(seen.parts.heap).ok()?;
    let file = policy::place(seen.parts.window, seen.platform.window_base, &asked).ok()?;
    let hash = lists::policy_hash(&policy::lists(file).ok()?);
    let (part, at) = seen.held[RECORD];
    (seen.parts.record.len() == RECORD_LENGTH).then_some((part, at + RECORD_FIELDS, hash))
}

#[cfg(test)]
mod tests {
    use super::*;
    use crate::subject::Turns;
    use samples::{image, Shape};

    const TURNS: Turns = Turns { times: 1, every: 1 };

    /// Of an empty capture most damages are void, and of one with equal bytes many.
    #[test]
    fn every_copy_differs_from_its_source() {
        let capture = |name: &str, bytes| Subject::of_capture(name.to_string(), bytes, TURNS);
        let image = Subject::of_image("two pages", image(&Shape::default()), 2, TURNS);
        let mut subjects = [capture("empty", vec![]), capture("zeros", vec![0; 200]), image];
        let donor = |subject: &Subject| Donor { name: subject.name.clone(), bytes: subject.bytes.clone() };
        let donors = Donors { captures: subjects[..2].iter().map(donor).collect(), parts: vec![donor(&subjects[2])] };
        let mut dice = Dice::new(1);
        for subject in &mut subjects {
            for copy in 0..300 {
                damage(&mut dice, subject, &donors);
                assert!(subject.differs(), "copy {copy} of {}", subject.name);
                subject.repair();
                assert!(!subject.differs(), "copy {copy} of {} was not repaired", subject.name);
            }
        }
    }
}
