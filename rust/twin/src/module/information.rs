//! The information table of a SINIT module, and the entries of its chipset list.

use crate::field::{part, u16_at, u32_at};
use inputs::Platform;

/// What the table begins with.
pub const UUID: [u8; 16] = [0xaa, 0x3a, 0xc0, 0x7f, 0xa7, 0x46, 0xdb, 0x18, 0x2e, 0xac, 0x69, 0x8f, 0x8d, 0x41, 0x7f, 0x5a];
/// The bytes of the table that must be inside the module.
pub const TABLE_LENGTH: u64 = 44;
/// The bytes of a chipset list's count, and of an entry.
pub const COUNT_LENGTH: u64 = 4;
pub const CHIPSET_LENGTH: u64 = 16;

/// The fields of the table.
#[derive(Clone, Copy, Debug, PartialEq, Eq)]
pub struct Information {
    pub uuid: [u8; 16],
    pub kind: u8,
    pub length: u16,
    /// The offset of the chipset list, from the module's first byte.
    pub chipset_list: u32,
    pub os_sinit_data_version: u32,
    pub min_mle_header_version: u32,
    pub acm_version: u8,
}

impl Information {
    /// The table at an offset of the module, where it is inside. No field is judged.
    pub fn read(module: &[u8], at: u64) -> Option<Self> {
        let table = part(module, at, TABLE_LENGTH)?;
        Some(Information {
            uuid: table[..16].try_into().ok()?,
            kind: table[16],
            length: u16_at(table, 18),
            chipset_list: u32_at(table, 20),
            os_sinit_data_version: u32_at(table, 24),
            min_mle_header_version: u32_at(table, 28),
            acm_version: table[36],
        })
    }

    /// The count of the chipset list, where it is inside the module.
    pub fn count(&self, module: &[u8]) -> Option<u32> {
        part(module, u64::from(self.chipset_list), COUNT_LENGTH).map(|count| u32_at(count, 0))
    }
}

/// An entry of the chipset list.
#[derive(Clone, Copy, Debug, PartialEq, Eq)]
pub struct Chipset {
    /// Whether the revision is a mask.
    pub mask: bool,
    pub vendor: u16,
    pub device: u16,
    pub revision: u16,
}

impl Chipset {
    pub(super) fn of(entry: &[u8]) -> Self {
        Chipset {
            mask: u32_at(entry, 0) & 1 == 1,
            vendor: u16_at(entry, 4),
            device: u16_at(entry, 6),
            revision: u16_at(entry, 8),
        }
    }

    pub fn matches(&self, platform: &Platform) -> bool {
        let revision = match self.mask {
            true => self.revision & platform.revision != 0,
            false => self.revision == platform.revision,
        };
        self.vendor == platform.vendor && self.device == platform.device && revision
    }
}
