//! How long the parts are. Who reads files up to a limit does not hand over all of them, and a finding should say so: `71 bytes or more`.

use crate::text::bytes;
use crate::Parts;
use std::fmt;

/// What follows a length that may be greater.
pub const OR_MORE: &str = " or more";

/// How long a part is.
#[derive(Clone, Copy, Debug, Default, PartialEq, Eq)]
pub struct Length {
    /// As far as it was read.
    pub bytes: u64,
    /// Whether it goes on behind that.
    pub more: bool,
}

impl Length {
    /// Of a part that was handed over whole.
    pub fn of(part: &[u8]) -> Self {
        Length { bytes: part.len() as u64, more: false }
    }

    /// What is said of it, and that it may be more.
    pub(super) fn or_more(&self, said: String) -> String {
        said + if self.more { OR_MORE } else { "" }
    }
}

impl fmt::Display for Length {
    fn fmt(&self, f: &mut fmt::Formatter) -> fmt::Result {
        f.write_str(&self.or_more(bytes(self.bytes)))
    }
}

/// The lengths of the five parts. A caller that reads files up to a limit says so here; a module that is too long for any platform need
/// not be in [`Parts`] at all.
#[derive(Clone, Copy, Debug, PartialEq, Eq)]
pub struct Lengths {
    pub window: Length,
    pub heap: Length,
    pub sinit: Length,
    pub record: Length,
    pub stm: Length,
}

impl Lengths {
    /// Of parts that were handed over whole.
    pub fn of(parts: &Parts) -> Self {
        Lengths {
            window: Length::of(parts.window),
            heap: Length::of(parts.heap),
            sinit: Length::of(parts.sinit),
            record: Length::of(parts.record),
            stm: Length::of(parts.stm),
        }
    }
}
