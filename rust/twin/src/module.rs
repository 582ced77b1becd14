//! Rules 6 to 11: the SINIT module's place and size, its header, GDT and entry point, the information table with the chipset list, and whether the
//! module knows the version of OsSinitData. Offsets and sizes of fields are added as 64-bit numbers, in which no sum of theirs wraps.

mod edition;
mod header;
mod information;

use crate::field::part;
use crate::heap::OsSinitData;
use crate::{need, Place, Stop};
pub use edition::{Edition, EDITIONS, LENGTH_UNIT, VERSION};
pub use header::{only_length, Header, HEADER_LENGTH};
pub use information::{Chipset, Information, CHIPSET_LENGTH, COUNT_LENGTH, TABLE_LENGTH, UUID};
use inputs::{MemoryRange, Platform, MOST_CHIPSETS, MOST_MODULE, PAGE_SIZE};

/// The type of a module that GETSEC[ENTERACCS] takes, and its vendor, Intel.
pub const TYPE: u16 = 2;
pub const VENDOR: u32 = 0x8086;
/// The type of an information table that is SINIT's.
pub const SINIT: u8 = 1;
/// What a GDT's limit is below.
pub const GDT_LIMITS: u32 = 1 << 16;
/// The bytes of a segment descriptor, of which the selector names one and uses the next as well.
pub const DESCRIPTOR: u32 = 8;

/// What of the module is wrong.
#[derive(Clone, Copy, Debug, PartialEq, Eq)]
pub enum Fault {
    /// 6: the base is not on a page; the length is over the ACRAM capacity, ends too high, is below the least, or is no multiple of 64.
    Base,
    Capacity,
    End,
    Least,
    Unit,
    /// 7: a field of the header.
    Type,
    Vendor,
    Version,
    HeaderLen,
    KeySize,
    Size,
    /// 8: the GDT begins too low, ends too high, or has too high a limit; the entry point lies too low or too high; the segment selector is below 8
    /// or no multiple of it, or ends past the GDT.
    GdtBase,
    GdtEnd,
    GdtLimit,
    EntryLow,
    EntryHigh,
    Selector,
    SelectorEnd,
    /// 9: the information table lies outside or has a wrong field; the count of the chipset list lies outside, is too high, or reaches too far.
    Table,
    Uuid,
    TableType,
    TableLength,
    List,
    Count,
    ListEnd,
    /// 10: no entry of the chipset list, which stands at this offset, matches.
    Chipset(u32),
    /// 11.
    OsSinitDataVersion,
}

impl From<Fault> for Stop {
    fn from(fault: Fault) -> Self {
        use Fault::*;
        let number = match fault {
            Base | Capacity | End | Least | Unit => 6,
            Type | Vendor | Version | HeaderLen | KeySize | Size => 7,
            GdtBase | GdtEnd | GdtLimit | EntryLow | EntryHigh | Selector | SelectorEnd => 8,
            Table | Uuid | TableType | TableLength | List | Count | ListEnd => 9,
            Chipset(_) => 10,
            OsSinitDataVersion => 11,
        };
        Stop { number, place: Place::Module(fault) }
    }
}

/// What later rules ask of the module.
#[derive(Clone, Copy, Debug, PartialEq, Eq)]
pub struct Module {
    pub flags: u16,
    /// The offset of the information table.
    pub table: u64,
    pub os_sinit_data_version: u32,
    pub min_mle_header_version: u32,
    pub acm_version: u8,
}

/// Rules 6 to 10. `length` is the module's, of which less may be held where it is too long for the platform.
pub fn read(sinit: &[u8], length: u64, platform: &Platform) -> Result<Module, Stop> {
    place(sinit, length, platform)?;
    // Less than the whole module is held only where it is too long, and then its place was refused.
    let header = Header::read(sinit).ok_or(Fault::Least)?;
    header.fixed_fields()?;
    need(header.stated_length() == sinit.len() as u64, Fault::Size)?;
    let table = header.table();
    entry(&header, table, sinit.len() as u64)?;
    let information = information(sinit, table)?;
    let mut chipsets = information.chipsets(sinit)?;
    need(chipsets.any(|chipset| chipset.matches(platform)), Fault::Chipset(information.chipset_list))?;
    Ok(Module {
        flags: header.flags,
        table,
        os_sinit_data_version: information.os_sinit_data_version,
        min_mle_header_version: information.min_mle_header_version,
        acm_version: information.acm_version,
    })
}

/// Rule 6.
fn place(sinit: &[u8], length: u64, platform: &Platform) -> Result<(), Stop> {
    let module = MemoryRange { base: platform.sinit_base, size: length };
    need(module.base % PAGE_SIZE == 0, Fault::Base)?;
    need(length <= platform.acram_capacity, Fault::Capacity)?;
    need(module.end() <= u128::from(MOST_MODULE), Fault::End)?;
    need(length >= Edition::of(sinit).least_length(), Fault::Least)?;
    Ok(need(length % LENGTH_UNIT == 0, Fault::Unit)?)
}

/// Rule 8.
fn entry(header: &Header, table: u64, length: u64) -> Result<(), Stop> {
    let (base, limit, entry) = (u64::from(header.gdt_base), u64::from(header.gdt_limit), u64::from(header.entry_point));
    need(base >= table, Fault::GdtBase)?;
    need(base + limit < length, Fault::GdtEnd)?;
    need(header.gdt_limit < GDT_LIMITS, Fault::GdtLimit)?;
    need(entry >= table, Fault::EntryLow)?;
    need(entry < length, Fault::EntryHigh)?;
    let selector = header.selector;
    need(selector >= DESCRIPTOR && selector % DESCRIPTOR == 0, Fault::Selector)?;
    Ok(need(u64::from(selector) + u64::from(2 * DESCRIPTOR - 1) <= limit, Fault::SelectorEnd)?)
}

/// The information table, as far as rule 9 speaks of it alone.
fn information(sinit: &[u8], table: u64) -> Result<Information, Stop> {
    let information = Information::read(sinit, table).ok_or(Fault::Table)?;
    need(information.uuid == UUID, Fault::Uuid)?;
    need(information.kind == SINIT, Fault::TableType)?;
    need(u64::from(information.length) >= TABLE_LENGTH, Fault::TableLength)?;
    Ok(information)
}

impl Information {
    /// The entries of the chipset list, where rule 9 holds of it.
    pub fn chipsets<'a>(&self, sinit: &'a [u8]) -> Result<impl Iterator<Item = Chipset> + 'a, Stop> {
        let list = u64::from(self.chipset_list);
        let count = self.count(sinit).ok_or(Fault::List)?;
        need(u64::from(count) <= MOST_CHIPSETS, Fault::Count)?;
        let entries = part(sinit, list + COUNT_LENGTH, CHIPSET_LENGTH * u64::from(count)).ok_or(Fault::ListEnd)?;
        Ok(entries.chunks_exact(CHIPSET_LENGTH as usize).map(Chipset::of))
    }
}

/// Rule 11.
pub fn knows_version(module: &Module, asked: &OsSinitData) -> Result<(), Stop> {
    Ok(need(asked.version <= module.os_sinit_data_version, Fault::OsSinitDataVersion)?)
}
