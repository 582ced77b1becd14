//! What was found, and where, in words. The check in ordinary Rust, `twin`, is run over the same inputs as the proved one; where it stops is said
//! here, and no rule is decided.
//!
//! A finding is said beside the proved answer and never changes it. [`find`] gives what the refusal speaks of, and is silent where the check in
//! ordinary Rust does not come to the very number of it, and of 27 to the very place.

mod grammar;
mod heap;
mod image;
mod length;
mod limits;
mod lists;
mod module;
mod record;
mod walk;

use crate::text::{bytes, counted, digits, spaced};
use crate::{capture, Parts, Platform, Refusal, PAGE_SIZE};
pub use length::{Length, Lengths};
use std::ops::Range;
use twin::heap::OsSinitData;
use twin::lists::Stm;
pub use twin::module::{only_length, Edition, EDITIONS, HEADER_LENGTH};
use twin::{Place, Stop};

/// What a refusal speaks of.
#[derive(Clone, Debug, PartialEq, Eq)]
pub struct Finding {
    pub number: u32,
    /// The field, entry or address, with its offset.
    pub place: String,
    pub expected: String,
    pub found: String,
    /// More of the same, a line each: the entries of a list, or the reason of each policy list or region.
    pub notes: Vec<String>,
    /// Of 27 the field of the policy file at the proved place; of other numbers none.
    pub field: Option<Field>,
}

/// A field of a policy file.
#[derive(Clone, Debug, PartialEq, Eq)]
pub struct Field {
    /// What it is called, as `the key size of list 0`.
    pub name: String,
    /// Its bytes in the file, as far as there are any.
    pub bytes: Range<u32>,
}

impl Finding {
    /// Whether it speaks of this refusal: of the same number, and of 27 with the same place.
    fn is_of(&self, refusal: Refusal) -> bool {
        let begins = self.field.as_ref().map_or(true, |field| field.bytes.start == refusal.place);
        self.number == refusal.number && begins
    }

    /// The same of a string that was handed over up to a limit only, where what was found is its length.
    pub fn or_more(mut self) -> Self {
        self.found.push_str(length::OR_MORE);
        self
    }
}

/// What is said of a stop: the parts of a finding but its number.
struct Words {
    place: String,
    expected: String,
    found: String,
    notes: Vec<String>,
    field: Option<Field>,
}

fn words(place: impl Into<String>, expected: impl Into<String>, found: impl Into<String>) -> Words {
    Words { place: place.into(), expected: expected.into(), found: found.into(), notes: Vec::new(), field: None }
}

impl Words {
    fn noted(self, notes: Vec<String>) -> Self {
        Words { notes, ..self }
    }

    fn of(self, stop: Stop) -> Finding {
        let Words { place, expected, found, notes, field } = self;
        Finding { number: stop.number, place, expected, found, notes, field }
    }
}

/// What a caller has at hand besides the parts: how long they are, where it read them up to a limit, and the digest of the pages, where
/// [`answer_measured`](crate::answer_measured) handed it out; without that a finding for 29 hashes the image.
#[derive(Clone, Copy, Debug, PartialEq, Eq)]
pub struct AtHand {
    pub lengths: Lengths,
    pub digest: Option<[u8; 32]>,
}

impl AtHand {
    /// Of parts that were handed over whole.
    fn of(parts: &Parts) -> Self {
        AtHand { lengths: Lengths::of(parts), digest: None }
    }
}

/// All that the check was asked with, for who says where it stopped.
struct Asked<'a> {
    parts: &'a Parts<'a>,
    lengths: &'a Lengths,
    platform: &'a Platform,
    places: usize,
}

impl Asked<'_> {
    /// OsSinitData, where the rules of the heap hold.
    fn os_sinit_data(&self) -> Option<OsSinitData> {
        twin::heap::read(self.parts.heap).ok()
    }
}

/// What this refusal of the check speaks of, where that can be said.
pub fn find(refusal: Refusal, parts: &Parts, platform: &Platform, places: usize) -> Option<Finding> {
    find_with(refusal, parts, &AtHand::of(parts), platform, places)
}

/// The same with what else is at hand.
pub fn find_with(refusal: Refusal, parts: &Parts, at_hand: &AtHand, platform: &Platform, places: usize) -> Option<Finding> {
    first_with(parts, at_hand, platform, places).filter(|finding| finding.is_of(refusal))
}

/// The same for a capture.
pub fn find_in_capture(refusal: Refusal, bytes: &[u8], places: usize) -> Option<Finding> {
    first_in_capture(bytes, places).filter(|finding| finding.is_of(refusal))
}

/// The same for the reader of policy files.
pub fn find_in_policy(refusal: Refusal, file: &[u8]) -> Option<Finding> {
    let stop = twin::policy::read(file).err()?;
    let finding = grammar::of_file(stop, file)?;
    Some(finding).filter(|finding| finding.is_of(refusal))
}

/// What rule 23 finds in a policy record, whatever it is checked with; nothing where the rule holds.
pub fn first_in_record(record: &[u8]) -> Option<Finding> {
    let stop = twin::record::read(record).err()?;
    record::rule_23(stop, record, &Length::of(record))
}

/// The first rule that does not hold, as the check in ordinary Rust sees it.
pub fn first(parts: &Parts, platform: &Platform, places: usize) -> Option<Finding> {
    first_with(parts, &AtHand::of(parts), platform, places)
}

/// The same for a capture.
pub fn first_in_capture(bytes: &[u8], places: usize) -> Option<Finding> {
    match twin::capture::split(bytes) {
        Ok((parts, platform)) => first(&parts, &platform, places).map(|finding| of_capture(finding, places)),
        Err(fault) => {
            let said = capture::said(fault, bytes);
            Some(words(said.place, said.expected, said.found).of(fault.into()))
        }
    }
}

/// Adds to a 13 that no capture holds so many pages, where the list has a place for every page that a capture could hold.
fn of_capture(mut finding: Finding, places: usize) -> Finding {
    if finding.number == 13 && places >= capture::MOST / PAGE_SIZE as usize {
        let most = capture::MOST;
        finding.notes.push(format!("a capture has at most {most} bytes, so this one does not hold that many pages"));
    }
    finding
}

fn first_with(parts: &Parts, at_hand: &AtHand, platform: &Platform, places: usize) -> Option<Finding> {
    let asked = Asked { parts, lengths: &at_hand.lengths, platform, places };
    match twin::find(parts, at_hand.lengths.sinit.bytes, platform, places) {
        Err(stop) => said(stop, &asked),
        Ok(found) => {
            let lists = found.lists.as_ref()?;
            let digest = at_hand.digest.unwrap_or_else(|| found.digest(parts, platform));
            let (criteria, mut stm) = (found.criteria(digest), Stm::of(parts.stm));
            let stop = twin::lists::lowest_permitting(lists, &criteria, &mut stm).err()?;
            Some(lists::none_permits(lists, &criteria, &mut stm).of(stop))
        }
    }
}

/// Where a stage before the digest stopped. The last two are no such places.
fn said(stop: Stop, asked: &Asked) -> Option<Finding> {
    let words = match stop.place {
        Place::Limits(fault) => limits::said(fault, asked),
        Place::Heap(fault) => heap::said(fault, asked.parts.heap),
        Place::Module(fault) => module::said(fault, asked)?,
        Place::Image(fault) => image::said(fault, asked)?,
        Place::Walk(fault) => walk::said(fault, asked)?,
        Place::Record(fault) => record::said(fault, asked)?,
        Place::Policy(fault) => grammar::said(fault, asked)?,
        Place::PolicyHash => lists::another_hash(asked)?,
        Place::NoList | Place::Capture(_) => return None,
    };
    Some(words.of(stop))
}

/// What is expected of an address that begins a page.
fn on_a_page() -> String {
    format!("a multiple of {PAGE_SIZE} ({PAGE_SIZE:#x})")
}

/// What a reserved range of the platform is called; they are counted from 0.
fn reserved_range(index: usize) -> String {
    format!("reserved range {index}")
}
