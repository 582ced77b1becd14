//! The header of a SINIT module: the fields that rules 6 to 8 and 24 read, and what rule 7 settles without the module's length.

use super::{Edition, Fault, TYPE, VENDOR};
use crate::field::{u16_at, u32_at};
use crate::{need, Stop};

/// The bytes of the header that are read.
pub const HEADER_LENGTH: u64 = 128;

/// The fields of a header. Sizes count words of 4 bytes.
#[derive(Clone, Copy, Debug, PartialEq, Eq)]
pub struct Header {
    pub kind: u16,
    pub header_len: u32,
    pub version: u32,
    pub flags: u16,
    pub vendor: u32,
    pub size: u32,
    pub gdt_limit: u32,
    pub gdt_base: u32,
    pub selector: u32,
    pub entry_point: u32,
    pub key_size: u32,
    pub scratch_size: u32,
}

impl Header {
    /// The header of a module, where its bytes are there. No field is judged.
    pub fn read(module: &[u8]) -> Option<Self> {
        let header = module.get(..HEADER_LENGTH as usize)?;
        Some(Header {
            kind: u16_at(header, 0),
            header_len: u32_at(header, 4),
            version: u32_at(header, 8),
            flags: u16_at(header, 14),
            vendor: u32_at(header, 16),
            size: u32_at(header, 24),
            gdt_limit: u32_at(header, 40),
            gdt_base: u32_at(header, 44),
            selector: u32_at(header, 48),
            entry_point: u32_at(header, 52),
            key_size: u32_at(header, 120),
            scratch_size: u32_at(header, 124),
        })
    }

    /// Rule 7 but for the size.
    pub fn fixed_fields(&self) -> Result<(), Stop> {
        need(self.kind == TYPE, Fault::Type)?;
        need(self.vendor == VENDOR, Fault::Vendor)?;
        let edition = Edition::of_version(self.version).ok_or(Fault::Version)?;
        need(u64::from(self.header_len) == edition.header_len, Fault::HeaderLen)?;
        Ok(need(u64::from(self.key_size) == edition.key_size, Fault::KeySize)?)
    }

    /// The bytes that the module has by its size.
    pub fn stated_length(&self) -> u64 {
        4 * u64::from(self.size)
    }

    /// E of the rules: where header and scratch end and the information table begins.
    pub fn table(&self) -> u64 {
        4 * u64::from(self.header_len) + 4 * u64::from(self.scratch_size)
    }
}

/// The one length with which a module that begins like this passes rule 7; 0 where no length does.
pub fn only_length(module: &[u8]) -> u64 {
    let passing = Header::read(module).filter(|header| header.fixed_fields().is_ok());
    passing.map_or(0, |header| header.stated_length())
}
