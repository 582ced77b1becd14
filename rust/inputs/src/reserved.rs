//! The ranges of physical memory that a platform reserves. No table and no page of an image may touch one, nor 0xA0000 to 0xFFFFF, the heap or the
//! module.

use crate::MOST_RESERVED;
use std::fmt;

/// A range of physical memory.
#[derive(Clone, Copy, Debug, Default, PartialEq, Eq)]
pub struct MemoryRange {
    /// Its first byte.
    pub base: u64,
    /// How many bytes it has. With none it reserves nothing.
    pub size: u64,
}

impl MemoryRange {
    /// The address behind its last byte. It may be above 2^64, and does not wrap.
    pub fn end(&self) -> u128 {
        u128::from(self.base) + u128::from(self.size)
    }

    /// Whether the two have a byte in common. With a range of no bytes none has.
    pub fn touches(&self, other: &MemoryRange) -> bool {
        u128::from(self.base.max(other.base)) < self.end().min(other.end())
    }
}

/// Up to [`MOST_RESERVED`] ranges, which may overlap each other. A finding counts them from 0.
///
/// ```
/// use inputs::{MemoryRange, Platform, Reserved};
///
/// let kept = MemoryRange { base: 0x7f00_0000, size: 0x80_0000 };
/// let platform = Platform { reserved: Reserved::new(&[kept])?, ..Platform::default() };
/// assert_eq!(platform.reserved.as_slice(), [kept]);
/// # Ok::<(), inputs::TooMany>(())
/// ```
#[derive(Clone, Copy, Default, PartialEq, Eq)]
pub struct Reserved {
    count: usize,
    /// Those from the count on are zeros.
    ranges: [MemoryRange; MOST_RESERVED],
}

/// There are more ranges than a platform has place for.
#[derive(Clone, Copy, Debug, PartialEq, Eq)]
pub struct TooMany;

impl fmt::Display for TooMany {
    fn fmt(&self, f: &mut fmt::Formatter) -> fmt::Result {
        write!(f, "a platform has at most {MOST_RESERVED} reserved ranges")
    }
}

impl std::error::Error for TooMany {}

impl Reserved {
    /// No range.
    pub const NONE: Reserved = Reserved { count: 0, ranges: [MemoryRange { base: 0, size: 0 }; MOST_RESERVED] };

    /// These ranges.
    pub fn new(ranges: &[MemoryRange]) -> Result<Self, TooMany> {
        let mut reserved = Reserved::NONE;
        ranges.iter().try_for_each(|range| reserved.push(*range))?;
        Ok(reserved)
    }

    /// One range more.
    pub fn push(&mut self, range: MemoryRange) -> Result<(), TooMany> {
        *self.ranges.get_mut(self.count).ok_or(TooMany)? = range;
        self.count += 1;
        Ok(())
    }

    pub fn as_slice(&self) -> &[MemoryRange] {
        &self.ranges[..self.count]
    }
}

impl fmt::Debug for Reserved {
    fn fmt(&self, f: &mut fmt::Formatter) -> fmt::Result {
        f.debug_list().entries(self.as_slice()).finish()
    }
}

#[cfg(test)]
mod tests {
    use super::*;

    #[test]
    fn no_more_than_there_is_place_for() {
        let range = |k: usize| MemoryRange { base: k as u64, size: u64::MAX };
        let most: Vec<MemoryRange> = (0..MOST_RESERVED).map(range).collect();
        let mut reserved = Reserved::NONE;
        for count in 0..MOST_RESERVED {
            assert_eq!((reserved.as_slice(), Reserved::new(&most[..count])), (&most[..count], Ok(reserved)));
            assert_eq!(reserved.push(range(count)), Ok(()));
        }
        assert_eq!(reserved.push(range(0)), Err(TooMany));
        assert_eq!(reserved.as_slice(), most);
        assert_eq!((Reserved::new(&most), Reserved::new(&[&most[..], &[range(0)]].concat())), (Ok(reserved), Err(TooMany)));
    }

    #[test]
    fn ranges_that_touch() {
        let of = |(base, size)| MemoryRange { base, size };
        for (one, other, touch) in [
            ((10, 5), (15, 5), false),
            ((10, 6), (15, 5), true),
            ((10, 5), (12, 0), false),
            ((10, 5), (12, 1), true),
            ((12, 0), (12, 0), false),
            ((u64::MAX, 1), (u64::MAX, 2), true),
            ((u64::MAX, 2), (0, 1), false),
        ] {
            assert_eq!([of(one).touches(&of(other)), of(other).touches(&of(one))], [touch; 2], "{one:?} and {other:?}");
        }
    }
}
