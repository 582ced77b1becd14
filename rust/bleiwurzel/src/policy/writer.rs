//! The writer of policy files.

use super::{ListDescription, MOST};
use crate::{Refusal, RECORD_FIELDS, RECORD_LENGTH};

/// A policy file of unsigned lists, and the policy record that goes with it.
#[derive(Clone, Debug, PartialEq, Eq)]
pub struct Written {
    pub file: Vec<u8>,
    pub record: [u8; RECORD_LENGTH],
}

/// What was written to a buffer: how many bytes from its first one on, and the policy record that goes with them.
#[derive(Clone, Copy, Debug, PartialEq, Eq)]
pub struct Placed {
    pub length: usize,
    pub record: [u8; RECORD_LENGTH],
}

/// The description is outside the grammar.
const OUTSIDE: Refusal = Refusal { number: 31, place: 0 };

/// Writes the policy file of these lists, and its record with these fields, which are not judged, before PolicyHash. 31 where the lists are
/// outside the grammar, else 32 where the file would have over 65,536 bytes.
///
/// ```
/// use bleiwurzel::policy::{descriptions, write, ElementDescription, ListDescription, RecordFields};
///
/// let list = ListDescription { version: 0x0201, elements: vec![ElementDescription::custom(0, b"site 17".to_vec())] };
/// let written = write(&[list.clone()], &RecordFields::default().bytes())?;
/// assert_eq!(written.file.len(), 36 + 8 + 12 + 7);
/// assert_eq!(descriptions(&written.file), Ok(vec![list]));
/// # Ok::<(), bleiwurzel::Refusal>(())
/// ```
pub fn write(lists: &[ListDescription], fields: &[u8; RECORD_FIELDS]) -> Result<Written, Refusal> {
    // With as much room 33 is never answered.
    let mut file = vec![0; MOST];
    let placed = write_into(lists, fields, &mut file)?;
    file.truncate(placed.length);
    Ok(Written { file, record: placed.record })
}

/// The same into a buffer: 33 where the file is longer. Bytes of the buffer past the file stay, and on a refusal all of them do.
pub fn write_into(lists: &[ListDescription], fields: &[u8; RECORD_FIELDS], buffer: &mut [u8]) -> Result<Placed, Refusal> {
    let (numbers, bodies) = flat(lists).ok_or(OUTSIDE)?;
    match library::policy_write(&numbers, &bodies, fields, buffer) {
        (0, length, record) => Ok(Placed { length: length as usize, record }),
        (number, _, _) => Err(Refusal { number, place: 0 }),
    }
}

/// The numbers of a description and its bodies, as the library takes them. None where a count or a length does not fit into 32 bits, for which
/// no file is of the grammar: it has at most eight lists, and the size of an element, and of a list's elements, has 32 bits and counts more than
/// the bodies.
fn flat(lists: &[ListDescription]) -> Option<(Vec<u32>, Vec<u8>)> {
    let (mut numbers, mut bodies) = (vec![fits(lists.len())?], Vec::new());
    for list in lists {
        numbers.extend([u32::from(list.version), fits(list.elements.len())?]);
        flat_elements(list, &mut numbers, &mut bodies)?;
    }
    Some((numbers, bodies))
}

fn flat_elements(list: &ListDescription, numbers: &mut Vec<u32>, bodies: &mut Vec<u8>) -> Option<()> {
    for element in &list.elements {
        numbers.extend([element.kind, element.control, fits(element.body.len())?]);
        bodies.extend_from_slice(&element.body);
    }
    Some(())
}

fn fits(length: usize) -> Option<u32> {
    u32::try_from(length).ok()
}
