//! What is said of rules 28 and 29: the measures of the lists, and why each list does not permit.

use super::{digits, words, Asked, Words};
use crate::policy::{hindrance, CUSTOM, LAUNCH, STM};
use twin::lists::{measure, names_stm, new_enough, policy_hash, reaches_counter, verifies, Criteria, Stm};
use twin::policy::{Body, Digests, Element, List, Signed};
use twin::record::{counter_at, Record};

/// Rule 28.
pub fn another_hash(asked: &Asked) -> Option<Words> {
    let file = twin::policy::place(asked.parts.window, asked.platform.window_base, &asked.os_sinit_data()?).ok()?;
    let lists = twin::policy::lists(file).ok()?;
    let record = Record::of(asked.parts.record)?;
    let kind = |list: &List| if list.signed.is_some() { "key" } else { "list" };
    let note = |(i, list): (usize, &List)| format!("list {i}: SHA-256 of its {} is {}", kind(list), digits(&measure(list)));
    let words = words(
        "PolicyHash, record offset 38",
        format!("{}, the hash of the policy file's lists", digits(&policy_hash(&lists))),
        digits(record.policy_hash),
    );
    Some(words.noted(lists.iter().enumerate().map(note).collect()))
}

/// Rule 29.
pub fn none_permits(lists: &[List], criteria: &Criteria, stm: &mut Stm) -> Words {
    let note = |(i, list): (usize, &List)| format!("list {i}: {}", objections(i, list, criteria, stm).join("; "));
    let notes = lists.iter().enumerate().map(note).collect();
    let expected = format!(
        "a list of types {LAUNCH:#x}, {CUSTOM} and {STM:#x} only, with a SHA-256 element of type {LAUNCH:#x} that names {} and, if it holds type \
         {STM:#x}, one of that type that names the STM image; if it is signed, a signature that verifies and a counter not below the record's",
        digits(&criteria.digest)
    );
    let found = format!("{} in the file, and none like that", lists.len());
    words("the lists of the policy file, counted from 0", expected, found).noted(notes)
}

/// All that keeps a list from permitting. The STM image is looked at last and only where all else is well, since it has to be hashed for that.
fn objections(i: usize, list: &List, criteria: &Criteria, stm: &mut Stm) -> Vec<String> {
    let mut all = Vec::from_iter(of_elements(list, criteria, stm));
    if let Some(signed) = &list.signed {
        all.extend(low_counter(i, list, signed, criteria.record));
        all.extend(bad_signature(list, signed));
    }
    if all.is_empty() {
        all.extend(other_stm(list, stm));
    }
    all
}

/// Why the elements of a list do not permit, whatever the digest of the STM image is.
fn of_elements(list: &List, criteria: &Criteria, stm: &Stm) -> Option<String> {
    let named: Vec<Launch> = launches(list).filter(|launch| launch.digests.name(&criteria.digest)).collect();
    if let Some(hindrance) = by_types(list, stm) {
        let also = if named.is_empty() { " (and it does not name the digest)" } else { "" };
        return Some(format!("{hindrance}{also}"));
    }
    if named.is_empty() {
        return Some(format!("it does not name the digest; it names {}", others(launches(list).map(|launch| launch.digests))));
    }
    too_new(&named, criteria.acm_version)
}

/// Why the elements of a list permit no image, whatever they name.
fn by_types(list: &List, stm: &Stm) -> Option<String> {
    let kinds = list.elements().map(|element| (element.at as u64, element.kind));
    if let Some(hindrance) = hindrance(kinds) {
        return Some(hindrance);
    }
    if stm.given() {
        return None;
    }
    let (j, element) = list.elements().enumerate().find(|(_, element)| matches!(element.body, Body::Stm(_)))?;
    let at = element.at;
    Some(format!("element {j} (file offset {at:#x}) is an STM element (type {STM:#x}), and no STM image was given"))
}

/// That the counter of a signed list is below the one that the record has for the list of this number.
fn low_counter(i: usize, list: &List, signed: &Signed, record: &Record) -> Option<String> {
    let (counter, asked, at) = (signed.counter, record.fields.counters[i], counter_at(i));
    (!reaches_counter(i, list, record))
        .then(|| format!("its counter {counter} is below {asked}, which the record asks of list {i} (record offset {at})"))
}

/// That the signature of a list does not verify.
fn bad_signature(list: &List, signed: &Signed) -> Option<String> {
    let (length, key) = (signed.key.len(), signed.key_at);
    (!verifies(list)).then(|| {
        let signature = key + length;
        format!("its signature does not verify (key of {length} bytes at file offset {key:#x}, signature at {signature:#x})")
    })
}

/// A launch element of a list.
struct Launch<'a> {
    number: usize,
    element: Element<'a>,
    sinit_min_version: u8,
    digests: Digests<'a>,
}

fn launches<'a>(list: &List<'a>) -> impl Iterator<Item = Launch<'a>> {
    list.elements().enumerate().filter_map(|(number, element)| match element.body {
        Body::Launch { sinit_min_version, digests } => Some(Launch { number, element, sinit_min_version, digests }),
        _ => None,
    })
}

/// How many digests are named instead of one that is not.
fn others<'a>(all: impl Iterator<Item = Digests<'a>>) -> String {
    let (ours, theirs): (Vec<Digests>, Vec<Digests>) = all.partition(Digests::by_sha256);
    let count = |some: &[Digests]| some.iter().map(|digests| u64::from(digests.count)).sum::<u64>();
    format!("{} other by SHA-256 and {} by other algorithms", count(&ours), count(&theirs))
}

/// Where all elements that name the image ask for a newer module, which one does.
fn too_new(named: &[Launch], version: u8) -> Option<String> {
    if named.iter().any(|launch| new_enough(version, launch.sinit_min_version)) {
        return None;
    }
    let Launch { number, element, sinit_min_version, .. } = named.first()?;
    Some(format!(
        "element {number} (file offset {:#x}) names the digest, but its SINITMinVersion {sinit_min_version} is above AcmVersion {version}",
        element.at
    ))
}

/// Where a list holds STM elements and none names the STM image, what they name.
fn other_stm(list: &List, stm: &mut Stm) -> Option<String> {
    if !list.stm {
        return None;
    }
    let digest = stm.digest();
    if names_stm(list, &digest) {
        return None;
    }
    let named = list.elements().filter_map(|element| match element.body {
        Body::Stm(digests) => Some(digests),
        _ => None,
    });
    Some(format!(
        "it names the digest, but its STM elements (type {STM:#x}) do not name the STM image, whose digest is {}; they name {}",
        digits(&digest),
        others(named)
    ))
}
