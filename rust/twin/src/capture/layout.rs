//! Where the fields of a capture's head stand. Its version settles that and, where there are reserved ranges, their count.

use super::{Fault, MARK, PARTS};
use crate::field::u16_at;
use crate::need;
use inputs::{Reserved, MOST_RESERVED};

/// The version without reserved ranges, and the one with them.
const WITHOUT_RANGES: u16 = 1;
const WITH_RANGES: u16 = 2;
/// Where the chipset's revision ends: the lengths of version 1 follow it, or the count of reserved ranges.
const REVISION_END: usize = 59;
/// The bytes of that count, of a range and of a length.
const COUNT_SIZE: usize = 2;
const RANGE_SIZE: usize = 16;
const LENGTH_SIZE: usize = 4;

/// What settles where the fields stand.
#[derive(Clone, Copy, Debug, PartialEq, Eq)]
pub struct Layout {
    pub version: u16,
    /// How many reserved ranges there are; none in version 1.
    pub ranges: usize,
}

impl Layout {
    /// The versions that there are, and the offset of a capture's.
    pub const VERSIONS: [u16; 2] = [WITHOUT_RANGES, WITH_RANGES];
    pub const VERSION: usize = 3;
    /// The offset of the count of reserved ranges, where there is one.
    pub const COUNT: usize = REVISION_END;
    /// That of version 1, which has the shortest head.
    pub const PLAIN: Layout = Layout { version: WITHOUT_RANGES, ranges: 0 };

    /// That of a capture which is made with these reserved ranges: version 1 where there are none.
    pub fn of(reserved: &Reserved) -> Self {
        match reserved.as_slice().len() {
            0 => Layout::PLAIN,
            ranges => Layout { version: WITH_RANGES, ranges },
        }
    }

    /// That of a file. All before the lengths is looked at, but for the platform's numbers.
    pub fn read(capture: &[u8]) -> Result<Self, Fault> {
        Layout::PLAIN.fits(capture)?;
        need(capture.starts_with(MARK), Fault::Mark)?;
        let layout = match u16_at(capture, Layout::VERSION) {
            WITHOUT_RANGES => Layout::PLAIN,
            WITH_RANGES => Layout { version: WITH_RANGES, ranges: usize::from(u16_at(capture, Layout::COUNT)) },
            other => return Err(Fault::Version(other)),
        };
        need(layout.ranges <= MOST_RESERVED, Fault::Ranges(layout.ranges as u16))?;
        layout.fits(capture)?;
        Ok(layout)
    }

    /// Stops where a file is too short for the head.
    fn fits(&self, capture: &[u8]) -> Result<(), Fault> {
        need(capture.len() >= self.head(), Fault::Short(*self))
    }

    /// Whether a count of reserved ranges stands behind the chipset's revision.
    pub const fn has_count(&self) -> bool {
        self.version != WITHOUT_RANGES
    }

    /// The offset of a reserved range, of which the base comes first.
    pub const fn range(index: usize) -> usize {
        REVISION_END + COUNT_SIZE + RANGE_SIZE * index
    }

    /// The offset of the length of a part.
    pub const fn length(&self, part: usize) -> usize {
        let first = if self.has_count() { Layout::range(self.ranges) } else { REVISION_END };
        first + LENGTH_SIZE * part
    }

    /// The bytes before the parts.
    pub const fn head(&self) -> usize {
        self.length(PARTS)
    }
}
