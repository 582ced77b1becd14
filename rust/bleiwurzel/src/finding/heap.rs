//! What is said of rules 2 to 5: the parts of the heap, OsSinitData, its elements, the PMRs.

use super::{bytes, words, Words};
use crate::{MemoryRange, HIGHEST_END};
use twin::field::{u32_at, u64_at};
use twin::heap::{Element, Fault, OsSinitData, Part, ELEMENT_HEAD, END, FIELDS_LENGTH, LEAST, PMR_SPLIT, SIZE_LENGTH, VERSIONS};

const PARTS: [&str; 3] = ["BiosData", "OsMleData", "OsSinitData"];

/// A field of OsSinitData by its name and its offset.
pub fn place(asked: &OsSinitData, name: &str, offset: usize) -> String {
    format!("{name}, offset {offset} in OsSinitData (heap offset {:#x})", asked.at + offset)
}

pub fn said(fault: Fault, heap: &[u8]) -> Words {
    match fault {
        Fault::NoSize(part) | Fault::SmallSize(part) | Fault::LargeSize(part) => of_part(fault, part, heap),
        Fault::Short(start) => {
            let parts = format!("{SIZE_LENGTH} for the size, {FIELDS_LENGTH} of fields, {ELEMENT_HEAD} for the end element");
            let at = Part { index: 2, at: start };
            words(size_of(at), format!("at least {LEAST} ({parts})"), u64_at(heap, start).to_string())
        }
        Fault::Version(start) => {
            let asked = OsSinitData::fields(heap, start);
            let [one, other] = VERSIONS;
            let version = asked.version;
            words(place(&asked, "version", 0), format!("{one} or {other}"), format!("{version} ({version:#x})"))
        }
        Fault::NoElement(element) => {
            let expected = format!("an end element (type {END}, size {ELEMENT_HEAD}) inside OsSinitData");
            words(in_element(element, "type and size", 0), expected, format!("{} left", bytes(element.left as u64)))
        }
        Fault::EndSize(element) | Fault::SmallElement(element) | Fault::LargeElement(element) => of_element(fault, element, heap),
        Fault::LowEnd(start) | Fault::HighBase(start) | Fault::HighEnd(start) => of_pmr(fault, &OsSinitData::fields(heap, start)),
    }
}

fn size_of(part: Part) -> String {
    format!("size of {} (heap offset {:#x})", PARTS[part.index], part.at)
}

fn of_part(fault: Fault, part: Part, heap: &[u8]) -> Words {
    let (left, whole) = (heap.len() - part.at, heap.len());
    let size = || u64_at(heap, part.at);
    match fault {
        Fault::NoSize(_) => {
            let found = format!("{} left in the heap of {whole}", bytes(left as u64));
            words(size_of(part), format!("{SIZE_LENGTH} bytes for the size field"), found)
        }
        Fault::SmallSize(_) => {
            let expected = format!("at least {SIZE_LENGTH}, since the size counts itself");
            words(size_of(part), expected, size().to_string())
        }
        _ => {
            let expected = format!("at most {left}, the bytes left in the heap of {whole}");
            words(size_of(part), expected, format!("{0} ({0:#x})", size()))
        }
    }
}

fn in_element(element: Element, what: &str, offset: usize) -> String {
    format!("element {} of OsSinitData, {what} (heap offset {:#x})", element.index, element.at + offset)
}

/// Of the size of an element, which is there.
fn of_element(fault: Fault, element: Element, heap: &[u8]) -> Words {
    let expected = match fault {
        Fault::EndSize(_) => format!("{ELEMENT_HEAD}, as the end element (type {END}) has"),
        Fault::SmallElement(_) => format!("at least {ELEMENT_HEAD}, since the size counts type and size"),
        _ => format!("at most {}, the bytes left in OsSinitData", element.left),
    };
    let (kind, size) = (u32_at(heap, element.at), u32_at(heap, element.at + 4));
    words(in_element(element, "size", 4), expected, format!("type {kind:#x}, size {size}"))
}

fn of_pmr(fault: Fault, asked: &OsSinitData) -> Words {
    let sum = |range: &MemoryRange| format!("base {:#x} + size {:#x} = {:#x}", range.base, range.size, range.end());
    let (low, high) = (&asked.low, &asked.high);
    match fault {
        Fault::LowEnd(_) => {
            let expected = format!("an end at or below 2^32 ({PMR_SPLIT:#x})");
            words(place(asked, "PMR low base and size", 32), expected, sum(low))
        }
        Fault::HighBase(_) => {
            let expected = format!("at or above 2^32 ({PMR_SPLIT:#x})");
            words(place(asked, "PMR high base", 48), expected, format!("{:#x}", high.base))
        }
        _ => {
            let expected = format!("an end at or below 2^52 ({HIGHEST_END:#x})");
            words(place(asked, "PMR high base and size", 48), expected, sum(high))
        }
    }
}
