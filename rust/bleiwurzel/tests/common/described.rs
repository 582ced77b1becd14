//! Policy files that have a description, and a plain writer of them.

use super::{captures, policy_bytes, policy_files, HASH_ALG_MASK};
use bleiwurzel::policy::{self, ElementDescription, ListDescription};
use bleiwurzel::{answer, capture, Parts};

/// A stored policy file of unsigned lists and types 0x10 and 3 only.
pub struct Stored {
    pub name: String,
    pub file: Vec<u8>,
    pub lists: Vec<ListDescription>,
    /// The record of its capture, whose PolicyHash is right or, where rule 28 refuses, wrong.
    pub record: Option<(Vec<u8>, bool)>,
}

/// All stored policy files that have a description: those by themselves, and those of captures in whose check rule 27 holds. Each file is there
/// once by itself, and of the captures once with each record.
pub fn described_files() -> Vec<Stored> {
    let alone = policy_files().into_iter().map(|(name, file)| (name, file, None));
    let mut files: Vec<Stored> = alone.chain(files_of_captures()).filter_map(described).collect();
    let mut seen = std::collections::HashSet::new();
    files.retain(|stored| seen.insert((stored.file.clone(), stored.record.clone())));
    files
}

type Found = (String, Vec<u8>, Option<(Vec<u8>, bool)>);

fn described((name, file, record): Found) -> Option<Stored> {
    let lists = policy::descriptions(&file).ok()?;
    Some(Stored { name, file, lists, record })
}

fn files_of_captures() -> impl Iterator<Item = Found> {
    captures().into_iter().filter_map(|(name, bytes)| {
        let (parts, platform) = capture::split(&bytes).ok()?;
        // A record that does not permit SHA-256 is written again as well, so it is asked with one that does.
        let mut record = parts.record.to_vec();
        *record.get_mut(HASH_ALG_MASK)? |= 0x08;
        let number = answer(&Parts { record: &record, ..parts }, &platform, &mut vec![0; capture::PLACES]).number;
        let listed = record[4] == 0 && [0, 28, 29].contains(&number);
        listed.then(|| (name, policy_bytes(&parts, &platform).to_vec(), Some((parts.record.to_vec(), number != 28))))
    })
}

/// The bytes of a list.
fn list_bytes(list: &ListDescription) -> Vec<u8> {
    let elements: Vec<u8> = list.elements.iter().flat_map(element_bytes).collect();
    let head = [list.version.to_le_bytes(), 0x0010u16.to_le_bytes()].concat();
    [head, (elements.len() as u32).to_le_bytes().to_vec(), elements].concat()
}

fn element_bytes(element: &ElementDescription) -> Vec<u8> {
    let numbers = [12 + element.body.len() as u32, element.kind, element.control];
    [numbers.map(u32::to_le_bytes).concat(), element.body.clone()].concat()
}

/// A policy file, and its PolicyHash, as one writes them without asking the library.
pub fn plainly_written(lists: &[ListDescription]) -> (Vec<u8>, [u8; 32]) {
    let lists: Vec<Vec<u8>> = lists.iter().map(list_bytes).collect();
    super::policy_file(&lists)
}
