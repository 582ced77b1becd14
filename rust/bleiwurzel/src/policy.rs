//! The reader of policy files: the number of a string, any list or element of it by number or at an offset, and all of them in turn.
//! Offsets count from the file's first byte. And the writer: the policy file of a description, with its record, and the description of a file.

mod description;
mod writer;

use crate::{rsa_verify, Refusal};
pub use description::{descriptions, ElementDescription, ListDescription, Undescribed};
use std::ops::Range;
pub use twin::policy::{algorithm, ALGORITHMS, CUSTOM, ELEMENT_HEAD, FIRST_LIST, LAUNCH, LEAST, LIST_HEAD, LIST_VERSIONS, MARK};
pub use twin::policy::{MOST, MOST_LISTS, SHA256, SHA256_PERMITTED, STM};
pub use twin::record::{counter_at, RecordFields};
pub use writer::{write, write_into, Placed, Written};

/// A list of a policy file.
#[derive(Clone, Debug, PartialEq, Eq)]
pub struct List {
    /// The whole list, key and signature included.
    pub bytes: Range<usize>,
    /// 0x0200 or 0x0201.
    pub version: u16,
    pub elements: Range<usize>,
    /// Where the list is signed.
    pub signed: Option<Signed>,
}

/// What stands behind the elements of a signed list.
#[derive(Clone, Debug, PartialEq, Eq)]
pub struct Signed {
    pub counter: u16,
    pub key: Range<usize>,
    pub signature: Range<usize>,
}

/// An element of a list.
#[derive(Clone, Debug, PartialEq, Eq)]
pub struct Element {
    /// The whole element, its size, type and control included.
    pub bytes: Range<usize>,
    pub kind: u32,
    pub control: u32,
    pub body: Body,
}

/// What of an element's body has fields.
#[derive(Clone, Debug, PartialEq, Eq)]
pub enum Body {
    /// Of type 0x10: it names images.
    Launch(Launch),
    /// Of type 0x14: it names STM images.
    Stm(Digests),
    /// Of any other type, whose body has none.
    Other,
}

/// The body of a launch element.
#[derive(Clone, Debug, PartialEq, Eq)]
pub struct Launch {
    pub sinit_min_version: u8,
    pub reserved: u8,
    pub digests: Digests,
}

/// Digests of one algorithm, one behind the other, with which an element ends.
#[derive(Clone, Debug, PartialEq, Eq)]
pub struct Digests {
    pub hash_alg: u16,
    pub count: u16,
}

impl Element {
    /// The digests of an element that names any.
    pub fn digests(&self) -> Option<&Digests> {
        match &self.body {
            Body::Launch(launch) => Some(&launch.digests),
            Body::Stm(digests) => Some(digests),
            Body::Other => None,
        }
    }
}

/// The type of the custom elements that tboot's tools write.
pub const TBOOT_CUSTOM: u32 = 0x13;

/// How many lists a policy file has, or 26, or 27 with the place of the first wrong field.
pub fn read(file: &[u8]) -> Result<usize, Refusal> {
    match library::policy(file) {
        (0, lists, _) => Ok(lists as usize),
        (number, _, place) => Err(Refusal { number, place: place as u32 }),
    }
}

fn span(start: u64, size: u64) -> Range<usize> {
    start as usize..(start + size) as usize
}

/// The list number i, counted from 0, where there is one. Each call reads the whole file; [`lists`] reads it once.
pub fn list(file: &[u8], i: usize) -> Option<List> {
    list_of(library::policy_list(file, i))
}

/// The list that stands at an offset of a string, where one does. The string is not judged as a whole.
pub fn list_at(file: &[u8], at: usize) -> Option<List> {
    list_of(library::policy_list_at(file, at))
}

/// The list of a kind with its fields.
fn list_of((kind, fields): (u32, [u64; 9])) -> Option<List> {
    let [start, size, version, elements, elements_size, counter, key_size, key, signature] = fields;
    let signed = match kind {
        0 => return None,
        1 => None,
        _ => Some(Signed { counter: counter as u16, key: span(key, key_size), signature: span(signature, key_size) }),
    };
    Some(List { bytes: span(start, size), version: version as u16, elements: span(elements, elements_size), signed })
}

/// The element number j of the list number i, both counted from 0, where there is one. Each call reads the whole file.
pub fn element(file: &[u8], i: usize, j: usize) -> Option<Element> {
    element_of(library::policy_element(file, i, j))
}

/// The element that stands at an offset of a string, where one does. The string is not judged as a whole.
pub fn element_at(file: &[u8], at: usize) -> Option<Element> {
    element_of(library::policy_element_at(file, at))
}

/// The element of a kind with its fields.
fn element_of((answer, fields): (u32, [u64; 8])) -> Option<Element> {
    let [start, size, kind, control, sinit_min_version, reserved, hash_alg, count] = fields;
    let digests = Digests { hash_alg: hash_alg as u16, count: count as u16 };
    let body = match answer {
        0 => return None,
        1 => Body::Launch(Launch { sinit_min_version: sinit_min_version as u8, reserved: reserved as u8, digests }),
        4 => Body::Stm(digests),
        _ => Body::Other,
    };
    Some(Element { bytes: span(start, size), kind: kind as u32, control: control as u32, body })
}

/// All lists of a policy file with their elements, in file order and from offset to offset; none of a refused string.
pub fn lists(file: &[u8]) -> impl Iterator<Item = (List, Vec<Element>)> + '_ {
    let mut at = FIRST_LIST;
    (0..read(file).unwrap_or(0)).map_while(move |_| {
        let list = list_at(file, at)?;
        at = list.bytes.end;
        let elements = elements(file, &list);
        Some((list, elements))
    })
}

/// The elements of a list, in file order; none where the list is of a longer file.
pub fn elements(file: &[u8], list: &List) -> Vec<Element> {
    let mut at = list.elements.start;
    let next = || {
        let element = element_at(file.get(..list.elements.end)?, at)?;
        at = element.bytes.end;
        Some(element)
    };
    std::iter::from_fn(next).collect()
}

/// Whether the signature of a signed list verifies; none for a list that is unsigned or of a longer file. What is signed is the list up to
/// its signature: header, elements, counter, key size and key.
pub fn verifies(file: &[u8], list: &List) -> Option<bool> {
    let Signed { key, signature, .. } = list.signed.as_ref()?;
    let message = file.get(list.bytes.start..signature.start)?;
    Some(rsa_verify(file.get(key.clone())?, file.get(signature.clone())?, message))
}

/// Why a list permits no image at all, where that is so by the types of its elements, which come with their offsets.
pub fn hindrance(elements: impl Iterator<Item = (u64, u32)>) -> Option<String> {
    let (j, (at, kind)) = elements.enumerate().find(|(_, (_, kind))| !twin::policy::judged(*kind))?;
    let whose = if kind == TBOOT_CUSTOM { ", as tboot's tools write custom elements," } else { "" };
    Some(format!(
        "element {j} (file offset {at:#x}) has type {kind:#x}{whose} and only types {LAUNCH:#x}, {CUSTOM} and {STM:#x} are judged"
    ))
}

/// Where digest k of a launch or an STM element stands. The digests fill the element up to its end.
pub fn digest(element: &Element, k: usize) -> Option<Range<usize>> {
    let digests = element.digests()?;
    let (length, _) = algorithm(digests.hash_alg)?;
    let left = usize::from(digests.count).checked_sub(k).filter(|left| *left > 0)?;
    let start = element.bytes.end.checked_sub(left * length)?;
    Some(start..start + length)
}
