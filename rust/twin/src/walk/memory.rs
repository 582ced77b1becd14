//! The memory that the walk asks about: the window, the ranges that no table and no page may touch, and the regions that are protected against DMA.
//! They are brought into the form in which a page is compared with them fastest: by its address alone.

use super::fault::{At, Fault, Why};
use crate::heap::OsSinitData;
use crate::{need, Stop};
use inputs::{MemoryRange, Parts, Platform, PAGE_SIZE};

/// A range that no table and no page may touch.
#[derive(Clone, Copy, Debug, PartialEq, Eq)]
pub enum Forbidden {
    /// 0xA0000 to 0xFFFFF.
    Hole,
    Heap,
    Module,
    /// Reserved ranges are counted from 0.
    Reserved(usize),
}

/// The 384 KiB below 1 MiB.
const HOLE: MemoryRange = MemoryRange { base: 0xa_0000, size: 0x6_0000 };

/// All ranges that are forbidden, in the order in which they are tried.
pub fn forbidden<'a>(parts: &Parts, platform: &'a Platform) -> impl Iterator<Item = (Forbidden, MemoryRange)> + 'a {
    let heap = MemoryRange { base: platform.heap_base, size: parts.heap.len() as u64 };
    let module = MemoryRange { base: platform.sinit_base, size: parts.sinit.len() as u64 };
    let fixed = [(Forbidden::Hole, HOLE), (Forbidden::Heap, heap), (Forbidden::Module, module)];
    let reserved = platform.reserved.as_slice().iter().enumerate();
    fixed.into_iter().chain(reserved.map(|(index, range)| (Forbidden::Reserved(index), *range)))
}

/// The regions that are protected against DMA: DPR, low PMR, high PMR.
pub fn regions(platform: &Platform, asked: &OsSinitData) -> [MemoryRange; 3] {
    [MemoryRange { base: platform.dpr_base, size: platform.dpr_size }, asked.low, asked.high]
}

/// What a table or a page takes.
pub fn page_at(address: u64) -> MemoryRange {
    MemoryRange { base: address, size: PAGE_SIZE }
}

/// Some of the three regions.
#[derive(Clone, Copy, Debug, PartialEq, Eq)]
pub struct Regions(u8);

impl Regions {
    pub const ALL: Regions = Regions(0b111);

    pub fn contains(self, region: usize) -> bool {
        self.0 >> region & 1 == 1
    }

    pub(super) fn none(self) -> bool {
        self.0 == 0
    }

    pub(super) fn and(self, other: Regions) -> Self {
        Regions(self.0 & other.0)
    }
}

/// Addresses of pages, from the first to the last; none where the last is below the first.
#[derive(Clone, Copy)]
struct Addresses {
    first: u64,
    last: u64,
}

impl Addresses {
    const NONE: Addresses = Addresses { first: 1, last: 0 };

    /// Those of the pages that lie wholly in a range.
    fn inside(range: &MemoryRange) -> Self {
        let last = |room| Addresses { first: range.base, last: range.base.saturating_add(room) };
        range.size.checked_sub(PAGE_SIZE).map_or(Addresses::NONE, last)
    }

    /// Those of the pages that have a byte in a range.
    fn touching(range: &MemoryRange) -> Self {
        let first = range.base.saturating_sub(PAGE_SIZE - 1);
        let last = |before_end| Addresses { first, last: range.base.saturating_add(before_end) };
        range.size.checked_sub(1).map_or(Addresses::NONE, last)
    }

    fn contain(&self, address: u64) -> bool {
        self.first <= address && address <= self.last
    }
}

/// What the walk asks about.
pub struct Memory<'a> {
    window: &'a [u8],
    base: u64,
    pages: Addresses,
    /// The forbidden ranges that touch the window, which mostly are none. Others touch no page of it.
    forbidden: Vec<(Forbidden, Addresses)>,
    regions: [Addresses; 3],
}

impl<'a> Memory<'a> {
    pub fn new(parts: &Parts<'a>, platform: &Platform, asked: &OsSinitData) -> Self {
        let window = MemoryRange { base: platform.window_base, size: parts.window.len() as u64 };
        let in_the_window = forbidden(parts, platform).filter(|(_, range)| range.touches(&window));
        Memory {
            window: parts.window,
            base: window.base,
            pages: Addresses::inside(&window),
            forbidden: in_the_window.map(|(which, range)| (which, Addresses::touching(&range))).collect(),
            regions: regions(platform, asked).map(|region| Addresses::inside(&region)),
        }
    }

    /// The rules for the table base.
    pub(super) fn base(&self, base: u64) -> Result<(), Stop> {
        let fault = |why| Fault { at: At::Base(base), why };
        need(base % PAGE_SIZE == 0, fault(Why::NotOnAPage))?;
        need(self.inside(base), fault(Why::Outside))?;
        if let Some(range) = self.touched(base) {
            return Err(fault(Why::Forbidden(range)).into());
        }
        Ok(need(!self.holding(base).none(), fault(Why::TableUnprotected))?)
    }

    /// Whether a page is wholly in the window.
    pub(super) fn inside(&self, address: u64) -> bool {
        self.pages.contain(address)
    }

    /// The address of the last page that is wholly in the window.
    pub(super) fn last_page(&self) -> u64 {
        self.pages.last
    }

    /// The bytes of a page that is inside the window.
    pub(super) fn page(&self, address: u64) -> &'a [u8] {
        &self.window[(address - self.base) as usize..][..PAGE_SIZE as usize]
    }

    /// The first forbidden range that a page touches.
    #[inline]
    pub(super) fn touched(&self, address: u64) -> Option<Forbidden> {
        self.forbidden.iter().find(|(_, touching)| touching.contain(address)).map(|(which, _)| *which)
    }

    /// The regions in which all of a page lies.
    #[inline]
    pub fn holding(&self, address: u64) -> Regions {
        let [dpr, low, high] = self.regions.map(|inside| u8::from(inside.contain(address)));
        Regions(dpr | low << 1 | high << 2)
    }
}
