//! Rule 30: capture files, with all that a check needs in one file.
//!
//! The mark `LPC`, a 16-bit version, the platform in the order of [`Platform`], four 32-bit lengths (window, heap, module, record), then the
//! four parts, and nothing after. Of reserved ranges version 1 has none; version 2 has a 16-bit count and that many pairs of 64-bit base and
//! size. There is no STM image in either.

mod layout;

use crate::field::{u16_at, u32_at, u64_at};
use crate::{need, Place, Stop};
use inputs::{MemoryRange, Parts, Platform, Reserved};
pub use layout::Layout;

pub const MARK: &[u8; 3] = b"LPC";
/// The most bytes of a capture.
pub const MOST: usize = 65_536;
/// How many parts it has.
pub const PARTS: usize = 4;

/// What keeps bytes from being a capture.
#[derive(Clone, Copy, Debug, PartialEq, Eq)]
pub enum Fault {
    /// There are too many bytes in all, or too few for a head of this layout.
    Long,
    Short(Layout),
    Mark,
    Version(u16),
    /// There are more reserved ranges than a platform has place for.
    Ranges(u16),
    /// The lengths in a head of this layout are not those of the file.
    Lengths(Layout),
}

impl From<Fault> for Stop {
    fn from(fault: Fault) -> Self {
        Stop { number: 30, place: Place::Capture(fault) }
    }
}

/// The parts and the platform of a capture.
pub fn split(capture: &[u8]) -> Result<(Parts<'_>, Platform), Fault> {
    need(capture.len() <= MOST, Fault::Long)?;
    let layout = Layout::read(capture)?;
    let lengths = layout.lengths(capture);
    let whole = layout.head() as u64 + lengths.iter().map(|length| u64::from(*length)).sum::<u64>();
    need(whole == capture.len() as u64, Fault::Lengths(layout))?;
    let [window, heap, sinit, _] = lengths.map(|length| length as usize);
    let (window, rest) = capture[layout.head()..].split_at(window);
    let (heap, rest) = rest.split_at(heap);
    let (sinit, record) = rest.split_at(sinit);
    Ok((Parts { window, heap, sinit, record, stm: &[] }, platform(capture, &layout)?))
}

fn platform(head: &[u8], layout: &Layout) -> Result<Platform, Fault> {
    let mut reserved = Reserved::NONE;
    for at in (0..layout.ranges).map(Layout::range) {
        let range = MemoryRange { base: u64_at(head, at), size: u64_at(head, at + 8) };
        reserved.push(range).map_err(|_| Fault::Ranges(layout.ranges as u16))?;
    }
    Ok(Platform {
        window_base: u64_at(head, 5),
        heap_base: u64_at(head, 13),
        sinit_base: u64_at(head, 21),
        dpr_base: u64_at(head, 29),
        dpr_size: u64_at(head, 37),
        acram_capacity: u64_at(head, 45),
        vendor: u16_at(head, 53),
        device: u16_at(head, 55),
        revision: u16_at(head, 57),
        reserved,
    })
}

impl Layout {
    /// The lengths of the four parts by a head of this layout.
    pub fn lengths(&self, head: &[u8]) -> [u32; PARTS] {
        std::array::from_fn(|part| u32_at(head, self.length(part)))
    }
}
