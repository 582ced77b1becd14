//! Rules 2 to 5: the three parts of the TXT heap, OsSinitData, its elements and the PMRs. The bodies of the other parts and of elements are not read.

use crate::field::{u32_at, u64_at, u64_in};
use crate::{need, Place, Stop};
use inputs::{MemoryRange, HIGHEST_END};
use std::ops::Range;

/// The versions of OsSinitData that the check knows.
pub const VERSIONS: [u32; 2] = [6, 7];
/// The bytes of a part's size, which counts itself.
pub const SIZE_LENGTH: usize = 8;
/// The bytes of OsSinitData's fields, and of an element's type and size.
pub const FIELDS_LENGTH: usize = 92;
pub const ELEMENT_HEAD: usize = 8;
/// The least bytes of OsSinitData: its size, its fields and the end element.
pub const LEAST: usize = SIZE_LENGTH + FIELDS_LENGTH + ELEMENT_HEAD;
/// The type of the end element.
pub const END: u32 = 0;
/// Where a low PMR ends at the latest, and where a high one begins at the earliest.
pub const PMR_SPLIT: u64 = 1 << 32;
const PARTS: usize = 3;

/// What of the heap is wrong.
#[derive(Clone, Copy, Debug, PartialEq, Eq)]
pub enum Fault {
    /// 2: the size of a part does not fit into the heap, is below 8, or reaches past the heap.
    NoSize(Part),
    SmallSize(Part),
    LargeSize(Part),
    /// 3: OsSinitData, whose size stands at this offset, is too short; or has another version.
    Short(usize),
    Version(usize),
    /// 4: where an element should be there is no room for one; the end element has another size; an element is below 8 bytes or reaches past the
    /// part.
    NoElement(Element),
    EndSize(Element),
    SmallElement(Element),
    LargeElement(Element),
    /// 5, of OsSinitData whose size stands at this offset.
    LowEnd(usize),
    HighBase(usize),
    HighEnd(usize),
}

/// A part of the heap by its number from 0 and the offset of its size.
#[derive(Clone, Copy, Debug, PartialEq, Eq)]
pub struct Part {
    pub index: usize,
    pub at: usize,
}

/// An element by its number from 0, its offset in the heap, and how many bytes are left for it in OsSinitData.
#[derive(Clone, Copy, Debug, PartialEq, Eq)]
pub struct Element {
    pub index: usize,
    pub at: usize,
    pub left: usize,
}

impl From<Fault> for Stop {
    fn from(fault: Fault) -> Self {
        let number = match fault {
            Fault::NoSize(_) | Fault::SmallSize(_) | Fault::LargeSize(_) => 2,
            Fault::Short(_) | Fault::Version(_) => 3,
            Fault::NoElement(_) | Fault::EndSize(_) | Fault::SmallElement(_) | Fault::LargeElement(_) => 4,
            Fault::LowEnd(_) | Fault::HighBase(_) | Fault::HighEnd(_) => 5,
        };
        Stop { number, place: Place::Heap(fault) }
    }
}

/// What OsSinitData asks for.
#[derive(Clone, Copy, Debug, PartialEq, Eq)]
pub struct OsSinitData {
    /// The offset in the heap of the byte after its size.
    pub at: usize,
    pub version: u32,
    pub tables: u64,
    pub mle_size: u64,
    pub header_base: u64,
    pub low: MemoryRange,
    pub high: MemoryRange,
    pub file: MemoryRange,
}

impl OsSinitData {
    /// The fields of the part whose size stands at this offset. They are not judged, and fit.
    pub fn fields(heap: &[u8], start: usize) -> Self {
        let at = start + SIZE_LENGTH;
        let fields = &heap[at..at + FIELDS_LENGTH];
        let range = |offset| MemoryRange { base: u64_at(fields, offset), size: u64_at(fields, offset + 8) };
        OsSinitData {
            at,
            version: u32_at(fields, 0),
            tables: u64_at(fields, 8),
            mle_size: u64_at(fields, 16),
            header_base: u64_at(fields, 24),
            low: range(32),
            high: range(48),
            file: range(64),
        }
    }
}

pub fn read(heap: &[u8]) -> Result<OsSinitData, Stop> {
    let part = last_part(heap)?;
    let start = part.start;
    need(part.len() >= LEAST, Fault::Short(start))?;
    let asked = OsSinitData::fields(heap, start);
    need(VERSIONS.contains(&asked.version), Fault::Version(start))?;
    elements(heap, part)?;
    protected(&asked, start)?;
    Ok(asked)
}

/// Where OsSinitData stands, its size included.
fn last_part(heap: &[u8]) -> Result<Range<usize>, Stop> {
    let mut part = 0..0;
    for index in 0..PARTS {
        let at = part.end;
        let this = Part { index, at };
        let size = u64_in(heap, at).ok_or(Fault::NoSize(this))?;
        need(size >= SIZE_LENGTH as u64, Fault::SmallSize(this))?;
        need(size <= (heap.len() - at) as u64, Fault::LargeSize(this))?;
        part = at..at + size as usize;
    }
    Ok(part)
}

fn elements(heap: &[u8], part: Range<usize>) -> Result<(), Stop> {
    let mut at = part.start + SIZE_LENGTH + FIELDS_LENGTH;
    for index in 0.. {
        let this = Element { index, at, left: part.end - at };
        need(this.left >= ELEMENT_HEAD, Fault::NoElement(this))?;
        let (kind, size) = (u32_at(heap, at), u32_at(heap, at + 4) as usize);
        if kind == END {
            return Ok(need(size == ELEMENT_HEAD, Fault::EndSize(this))?);
        }
        need(size >= ELEMENT_HEAD, Fault::SmallElement(this))?;
        need(size <= this.left, Fault::LargeElement(this))?;
        at += size;
    }
    Ok(())
}

/// Rule 5, of the PMRs that are used.
fn protected(asked: &OsSinitData, start: usize) -> Result<(), Stop> {
    let (low, high) = (&asked.low, &asked.high);
    need(low.size == 0 || low.end() <= u128::from(PMR_SPLIT), Fault::LowEnd(start))?;
    need(high.size == 0 || high.base >= PMR_SPLIT, Fault::HighBase(start))?;
    Ok(need(high.size == 0 || high.end() <= u128::from(HIGHEST_END), Fault::HighEnd(start))?)
}
