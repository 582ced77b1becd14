//! What is said of rules 26 and 27: the policy file's place and length, and the field of it at which the reading stopped.

#[cfg(test)]
mod walk;

use super::{bytes, counted, heap, spaced, words, Asked, Field, Finding, Length, Words};
use crate::policy;
use twin::policy::{
    Fault, Field as Part, Wrong, ALGORITHMS, ELEMENT_HEAD, KEY_SIZES, LIST_COUNT, LIST_VERSIONS, RSASSA, UNSIGNED,
};
use twin::{Place, Stop};

/// In the check, where the file stands in memory.
pub fn said(fault: Fault, asked: &Asked) -> Option<Words> {
    let (window, window_base) = (asked.parts.window, asked.platform.window_base);
    let os_sinit_data = asked.os_sinit_data()?;
    let file = os_sinit_data.file;
    Some(match fault {
        Fault::Grammar(wrong) => {
            let bytes = twin::policy::place(window, window_base, &os_sinit_data).ok()?;
            of_field(wrong, bytes, Some(file.base))
        }
        Fault::Size => {
            let found = format!("{} (base {:#x})", file.size, file.base);
            words(heap::place(&os_sinit_data, "policy file size", 72), lengths(), found)
        }
        _ => words(
            heap::place(&os_sinit_data, "policy file base and size", 64),
            format!(
                "wholly in the window, from {window_base:#x} up to, not including, {:#x}",
                u128::from(window_base) + window.len() as u128
            ),
            format!("{:#x} + {:#x} = {:#x}", file.base, file.size, file.end()),
        ),
    })
}

/// Of a file by itself.
pub fn of_file(stop: Stop, file: &[u8]) -> Option<Finding> {
    let words = match stop.place {
        Place::Policy(Fault::Grammar(wrong)) => of_field(wrong, file, None),
        Place::Policy(_) => words("length of the policy file", lengths(), Length::of(file).to_string()),
        _ => return None,
    };
    Some(words.of(stop))
}

fn lengths() -> String {
    format!("{} to {} bytes", policy::LEAST, policy::MOST)
}

/// What is said of the field, which has a physical address where the file stands in memory.
fn of_field(wrong: Wrong, file: &[u8], base: Option<u64>) -> Words {
    let (name, at) = (name(&wrong), wrong.at);
    let place = match base {
        None => format!("{name} (file offset {at}, {at:#x})"),
        Some(base) => {
            let address = u128::from(base) + at as u128;
            format!("{name} (policy file offset {at}, {at:#x}, physical {address:#x})")
        }
    };
    let (expected, found) = expected_and_found(&wrong, file);
    let end = width(wrong.field).map_or(wrong.holder.end, |width| wrong.holder.end.min(at + width));
    Words { field: Some(Field { name, bytes: at as u32..end as u32 }), ..words(place, expected, found) }
}

/// What the field is called.
fn name(wrong: &Wrong) -> String {
    let (list, element) = (wrong.holder.list, wrong.holder.element);
    let of_list = |name: &str| format!("{name} of list {list}");
    let of_element = |name: &str| format!("{name} of element {element} of list {list}");
    match wrong.field {
        Part::Mark => format!("the mark, `{}` and 4 zeros", policy::MARK),
        Part::Zeros => "the 3 zeros before the list count".to_string(),
        Part::ListCount => "the list count".to_string(),
        Part::ListVersion => of_list("the version"),
        Part::SignatureAlgorithm => of_list("the signature algorithm"),
        Part::ElementsSize => of_list("the elements size"),
        Part::NoElement | Part::SmallElement | Part::LargeElement => of_element("the size"),
        Part::SinitMinVersion => of_element("SINITMinVersion"),
        Part::Reserved => of_element("the reserved byte"),
        Part::HashAlg => of_element("HashAlg"),
        Part::DigestCount { .. } => of_element("the digest count"),
        Part::AfterDigests { .. } => of_element("what follows the digests"),
        Part::Counter => of_list("the counter"),
        Part::KeySize | Part::LargeKey => of_list("the key size"),
        Part::AfterLists => "what follows the last list".to_string(),
    }
}

/// How many bytes the field has; none where it is all that is left.
fn width(field: Part) -> Option<usize> {
    match field {
        Part::NoElement | Part::AfterDigests { .. } | Part::AfterLists => None,
        Part::Mark => Some(twin::policy::MARK_LENGTH),
        Part::Zeros => Some(twin::policy::ZEROS),
        Part::ListCount | Part::SinitMinVersion | Part::Reserved => Some(1),
        Part::ElementsSize | Part::SmallElement | Part::LargeElement => Some(4),
        _ => Some(2),
    }
}

/// What holds the field.
fn holder(wrong: &Wrong, file: &[u8]) -> String {
    match wrong.field {
        Part::ListVersion => format!("the file, whose list count is {}", file[LIST_COUNT]),
        Part::NoElement | Part::SmallElement | Part::LargeElement => "the list's elements".to_string(),
        Part::SinitMinVersion | Part::Reserved | Part::HashAlg | Part::DigestCount { .. } | Part::AfterDigests { .. } => {
            format!("the element of {} bytes", wrong.holder.end - wrong.holder.begin)
        }
        _ => "the file".to_string(),
    }
}

/// The bytes that are left for what stands at an offset.
fn left(wrong: &Wrong, at: usize) -> String {
    bytes(wrong.holder.end.saturating_sub(at) as u64)
}

fn expected_and_found(wrong: &Wrong, file: &[u8]) -> (String, String) {
    let (at, holder, rest) = (wrong.at, holder(wrong, file), left(wrong, wrong.at));
    match (wrong.field, width(wrong.field)) {
        (Part::AfterDigests { count, length }, _) => {
            let digests = counted(u64::from(count), "digest");
            (format!("the end of {holder}, after {digests} of {length} bytes"), format!("{rest} more"))
        }
        (Part::AfterLists, _) => (format!("the end of {holder}"), format!("{rest} more")),
        (Part::Mark, _) => differing(at, file, &[policy::MARK.as_bytes(), &[0; 4]].concat()),
        (Part::Zeros, _) => differing(at, file, &[0; twin::policy::ZEROS]),
        (_, Some(width)) if !wrong.fits => (format!("{} inside {holder}", bytes(width as u64)), format!("{rest} left")),
        (_, Some(width)) => of_number(wrong, number(&file[at..at + width])),
        (_, None) => (format!("an element of at least {ELEMENT_HEAD} bytes, or no bytes"), format!("{rest} left in {holder}")),
    }
}

fn number(field: &[u8]) -> usize {
    field.iter().rev().fold(0, |number, byte| number << 8 | usize::from(*byte))
}

/// Of bytes that are always the same.
fn differing(at: usize, file: &[u8], value: &[u8]) -> (String, String) {
    let found = &file[at..at + value.len()];
    let differs = at + found.iter().zip(value).take_while(|(found, byte)| found == byte).count();
    (spaced(value), format!("{}, which differs first at offset {differs} ({differs:#x})", spaced(found)))
}

/// Of a number that is there and is wrong.
fn of_number(wrong: &Wrong, number: usize) -> (String, String) {
    let (at, plain, hex) = (wrong.at, number.to_string(), format!("{number:#06x}"));
    match wrong.field {
        Part::ListCount => (format!("1 to {}", policy::MOST_LISTS), plain),
        Part::ListVersion => (one_of(&LIST_VERSIONS.map(|version| format!("{version:#06x}"))), hex),
        Part::SignatureAlgorithm => (format!("{UNSIGNED:#06x} (none) or {RSASSA:#06x} (RSASSA)"), hex),
        Part::ElementsSize => (format!("at most {}, the bytes left in the file", wrong.holder.end - (at + 4)), plain),
        Part::SmallElement => (format!("at least {ELEMENT_HEAD}, since the size counts size, type and control"), plain),
        Part::LargeElement => (format!("at most {}, the bytes left in the list's elements", wrong.holder.end - at), plain),
        Part::HashAlg => (one_of(&ALGORITHMS.map(|(hash_alg, _, _)| format!("{hash_alg:#06x}"))), hex),
        Part::DigestCount { length } => (most_digests(wrong, length), plain),
        Part::LargeKey => (
            format!("a key and a signature of {number} bytes each inside the file"),
            format!("{number}, and {} left for both", left(wrong, at + 2)),
        ),
        _ => (one_of(&KEY_SIZES.map(|size| size.to_string())), plain),
    }
}

fn most_digests(wrong: &Wrong, length: usize) -> String {
    let (first, size) = (wrong.at + 2, wrong.holder.end - wrong.holder.begin);
    let most = wrong.holder.end.saturating_sub(first) / length;
    format!("at most {most}, with {} left in the element of {size} bytes for digests of {length} bytes", left(wrong, first))
}

/// Values of which one is expected.
fn one_of(values: &[String]) -> String {
    let (last, others) = values.split_last().expect("a value");
    format!("{} or {last}", others.join(", "))
}
