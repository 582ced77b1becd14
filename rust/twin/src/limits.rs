//! Rule 1: the window begins on a page, no part is over its limit, and what has a base and a size ends at or below 2^52.

use crate::{need, Place, Stop};
use inputs::{MemoryRange, Parts, Platform, HIGHEST_END, MOST_HEAP, MOST_STM, MOST_WINDOW, PAGE_SIZE};

/// What of the sizes and places is wrong.
#[derive(Clone, Copy, Debug, PartialEq, Eq)]
pub enum Fault {
    /// The window's base is not on a page.
    WindowBase,
    /// A part is over its limit.
    Length(Part),
    /// A range ends too high.
    End(Extent),
}

/// The parts that have a limit of their own.
#[derive(Clone, Copy, Debug, PartialEq, Eq)]
pub enum Part {
    Window,
    Heap,
    Stm,
}

/// The ranges that have a base and a size.
#[derive(Clone, Copy, Debug, PartialEq, Eq)]
pub enum Extent {
    Window,
    Heap,
    Dpr,
    /// Reserved ranges are counted from 0.
    Reserved(usize),
}

impl From<Fault> for Stop {
    fn from(fault: Fault) -> Self {
        Stop { number: 1, place: Place::Limits(fault) }
    }
}

pub fn hold(parts: &Parts, platform: &Platform) -> Result<(), Stop> {
    need(platform.window_base % PAGE_SIZE == 0, Fault::WindowBase)?;
    need(parts.window.len() <= MOST_WINDOW, Fault::Length(Part::Window))?;
    need(parts.heap.len() <= MOST_HEAP, Fault::Length(Part::Heap))?;
    need(parts.stm.len() <= MOST_STM, Fault::Length(Part::Stm))?;
    ends(platform.window_base, parts.window.len() as u64, Extent::Window)?;
    ends(platform.heap_base, parts.heap.len() as u64, Extent::Heap)?;
    ends(platform.dpr_base, platform.dpr_size, Extent::Dpr)?;
    let mut reserved = platform.reserved.as_slice().iter().enumerate();
    reserved.try_for_each(|(index, range)| ends(range.base, range.size, Extent::Reserved(index)))
}

fn ends(base: u64, size: u64, extent: Extent) -> Result<(), Stop> {
    Ok(need(MemoryRange { base, size }.end() <= u128::from(HIGHEST_END), Fault::End(extent))?)
}
