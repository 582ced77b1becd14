//! The editions of a SINIT module's header: what its version settles, in rules 6 and 7.

use super::TABLE_LENGTH;
use crate::field::u32_in;

/// An edition of the header. HeaderLen and KeySize count words of 4 bytes.
#[derive(Clone, Copy, Debug, PartialEq, Eq)]
pub struct Edition {
    /// The version as Intel's guide writes it, major and minor.
    pub name: &'static str,
    pub version: u64,
    pub header_len: u64,
    pub key_size: u64,
}

/// The editions that the check knows.
pub const EDITIONS: [Edition; 2] = [
    Edition { name: "0.0", version: 0, header_len: 161, key_size: 64 },
    Edition { name: "3.0", version: 0x0003_0000, header_len: 224, key_size: 96 },
];

/// Where the version stands in the header.
pub const VERSION: u64 = 8;
/// What a module's length is a multiple of.
pub const LENGTH_UNIT: u64 = 64;

impl Edition {
    /// That of a module which begins like this; where no edition has its version, the first.
    pub fn of(module: &[u8]) -> Self {
        u32_in(module, VERSION as usize).and_then(Edition::of_version).unwrap_or(EDITIONS[0])
    }

    /// The one with this version.
    pub fn of_version(version: u32) -> Option<Self> {
        EDITIONS.into_iter().find(|edition| edition.version == u64::from(version))
    }

    /// The least length of a module: the least multiple of the unit that holds header and information table, with no scratch.
    pub fn least_length(&self) -> u64 {
        (4 * self.header_len + TABLE_LENGTH + LENGTH_UNIT - 1) / LENGTH_UNIT * LENGTH_UNIT
    }
}
