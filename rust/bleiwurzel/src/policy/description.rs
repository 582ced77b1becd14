//! What a policy file of unsigned lists is written from, and the way back from such a file.

use super::{lists, read, Element, Launch, List, CUSTOM, ELEMENT_HEAD, LAUNCH, TBOOT_CUSTOM};
use crate::Refusal;
use std::fmt;

/// An unsigned list that is to be written.
#[derive(Clone, Debug, PartialEq, Eq)]
pub struct ListDescription {
    /// 0x0200 or 0x0201.
    pub version: u16,
    pub elements: Vec<ElementDescription>,
}

/// An element of it.
#[derive(Clone, Debug, PartialEq, Eq)]
pub struct ElementDescription {
    /// The type: [`LAUNCH`] or [`CUSTOM`].
    pub kind: u32,
    pub control: u32,
    /// What follows size, type and control. Of a launch element: SINITMinVersion, reserved, HashAlg, count and the digests.
    pub body: Vec<u8>,
}

impl ElementDescription {
    /// A launch element with these fields and these digests, one behind the other. Whether they are as many as it says is for the writer to
    /// judge.
    pub fn launch(control: u32, launch: &Launch, digests: &[u8]) -> Self {
        let mut body = vec![launch.sinit_min_version, launch.reserved];
        body.extend_from_slice(&launch.digests.hash_alg.to_le_bytes());
        body.extend_from_slice(&launch.digests.count.to_le_bytes());
        body.extend_from_slice(digests);
        ElementDescription { kind: LAUNCH, control, body }
    }

    /// A custom element with this body.
    pub fn custom(control: u32, body: Vec<u8>) -> Self {
        ElementDescription { kind: CUSTOM, control, body }
    }
}

/// Why a string has no description. Lists and elements are counted from 0.
#[derive(Clone, Copy, Debug, PartialEq, Eq)]
pub enum Undescribed {
    /// It is no policy file.
    Refused(Refusal),
    /// This list is signed.
    Signed { list: usize },
    /// This element is neither a launch nor a custom element.
    OtherType { list: usize, element: usize, kind: u32 },
}

impl fmt::Display for Undescribed {
    fn fmt(&self, f: &mut fmt::Formatter) -> fmt::Result {
        match self {
            Undescribed::Refused(refusal) => refusal.fmt(f),
            Undescribed::Signed { list } => {
                write!(f, "list {list} is signed, and only unsigned lists have a description")
            }
            Undescribed::OtherType { list, element, kind } => {
                let whose = if *kind == TBOOT_CUSTOM { ", as tboot's tools write custom elements," } else { "" };
                write!(
                    f,
                    "element {element} of list {list} has type {kind:#x}{whose} and only types {LAUNCH:#x} and {CUSTOM} have a description"
                )
            }
        }
    }
}

impl std::error::Error for Undescribed {}

/// The descriptions from which a policy file is written again, byte for byte; or the first list, or element, in file order that has none.
pub fn descriptions(file: &[u8]) -> Result<Vec<ListDescription>, Undescribed> {
    read(file).map_err(Undescribed::Refused)?;
    lists(file).enumerate().map(|(i, (list, elements))| list_of(file, i, &list, &elements)).collect()
}

fn list_of(file: &[u8], i: usize, list: &List, elements: &[Element]) -> Result<ListDescription, Undescribed> {
    if list.signed.is_some() {
        return Err(Undescribed::Signed { list: i });
    }
    let elements = elements.iter().enumerate().map(|(j, element)| element_of(file, i, j, element));
    Ok(ListDescription { version: list.version, elements: elements.collect::<Result<_, _>>()? })
}

fn element_of(file: &[u8], i: usize, j: usize, element: &Element) -> Result<ElementDescription, Undescribed> {
    let kind = element.kind;
    if ![LAUNCH, CUSTOM].contains(&kind) {
        return Err(Undescribed::OtherType { list: i, element: j, kind });
    }
    // The reader has found every element wholly inside the file.
    let body = file.get(element.bytes.start + ELEMENT_HEAD..element.bytes.end).unwrap_or_default().to_vec();
    Ok(ElementDescription { kind, control: element.control, body })
}
