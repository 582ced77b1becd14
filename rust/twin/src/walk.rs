//! Rules 14 to 20: the walk through the page tables, one level after the other, as the rules have their order. Each table is read once. What a
//! table or a page is tried for is settled by a few comparisons; only where they fail it is asked which rule that was.

mod fault;
mod memory;

use crate::Stop;
pub use fault::{entry_address, At, Fault, Why};
use inputs::MOST_TABLES;
pub use memory::{forbidden, page_at, regions, Forbidden, Memory, Regions};

/// The bit of an entry that is present, and those of the address in it.
const PRESENT: u64 = 1;
pub const ADDRESS: u64 = 0x000f_ffff_ffff_f000;
/// How many entries a directory and a page table have, and the bytes of one.
pub const ENTRIES: u64 = 512;
const ENTRY_LENGTH: usize = 8;

/// The levels of tables. The entries of the last name pages.
#[derive(Clone, Copy, Debug, PartialEq, Eq)]
pub enum Level {
    Pointer,
    Directory,
    Page,
}

impl Level {
    fn entries(self) -> u64 {
        match self {
            Level::Pointer => 4,
            Level::Directory | Level::Page => ENTRIES,
        }
    }

    /// The bits that a present entry has clear.
    pub fn reserved(self) -> u64 {
        const HIGH: u64 = 0xfff << 52;
        match self {
            Level::Pointer => HIGH | 0x1e6,
            Level::Directory => HIGH | 0x80,
            Level::Page => HIGH,
        }
    }
}

/// A table by its address and the number of its first entry among all of its level.
#[derive(Clone, Copy)]
struct Table {
    address: u64,
    first: u64,
}

/// The pages in linear order, and the first one's linear number.
#[derive(Clone, Debug, PartialEq, Eq)]
pub struct Mapped {
    pub first: u64,
    pub pages: Vec<u64>,
}

/// The pages behind the table base. There is room for so many from the start.
pub fn walk(memory: &Memory, base: u64, expected: usize) -> Result<Mapped, Stop> {
    memory.base(base)?;
    let mut walk = Walk { memory, last: base, tables: 1 };
    let directories = walk.tables(Level::Pointer, &[Table { address: base, first: 0 }])?;
    let tables = walk.tables(Level::Directory, &directories)?;
    walk.pages(&tables, expected)
}

struct Walk<'a> {
    memory: &'a Memory<'a>,
    /// The address before, which every address must exceed. It is inside the window.
    last: u64,
    /// How many tables there are so far.
    tables: usize,
}

impl Walk<'_> {
    /// The tables that the present entries of these name, in order.
    fn tables(&mut self, level: Level, tables: &[Table]) -> Result<Vec<Table>, Stop> {
        let (memory, mut named) = (self.memory, Vec::with_capacity(MOST_TABLES));
        for table in tables {
            for (index, entry) in present(memory, level, table) {
                let fault = |why| Fault { at: At::entry(level, table, index, entry), why };
                let address = self.address(level, entry).map_err(fault)?;
                if self.tables == MOST_TABLES {
                    return Err(fault(Why::TooManyTables).into());
                }
                if memory.holding(address).none() {
                    return Err(fault(Why::TableUnprotected).into());
                }
                self.tables += 1;
                named.push(Table { address, first: (table.first + index) * ENTRIES });
            }
        }
        Ok(named)
    }

    /// The pages that the present entries of these name. One region must hold them all.
    fn pages(&mut self, tables: &[Table], expected: usize) -> Result<Mapped, Stop> {
        let mut mapped = Mapped { first: 0, pages: Vec::with_capacity(expected) };
        let (memory, mut common) = (self.memory, Regions::ALL);
        for table in tables {
            for (index, entry) in present(memory, Level::Page, table) {
                let fault = |why| Fault { at: At::entry(Level::Page, table, index, entry), why };
                let address = self.address(Level::Page, entry).map_err(fault)?;
                let linear = table.first + index;
                if mapped.pages.is_empty() {
                    mapped.first = linear;
                }
                let next = mapped.first + mapped.pages.len() as u64;
                if linear != next {
                    return Err(fault(Why::Gap { expected: next }).into());
                }
                let held = common.and(memory.holding(address));
                if held.none() {
                    return Err(fault(Why::PageUnprotected { common, first: mapped.pages.first().copied() }).into());
                }
                common = held;
                mapped.pages.push(address);
            }
        }
        Ok(mapped)
    }

    /// The address of an entry, or which of 14 to 17 it fails.
    #[inline]
    fn address(&mut self, level: Level, entry: u64) -> Result<u64, Why> {
        let address = entry & ADDRESS;
        // The one before is not below the window, so neither is an address above it.
        let follows = self.last < address && address <= self.memory.last_page();
        if entry & level.reserved() != 0 || !follows {
            return Err(self.why(level, entry));
        }
        if let Some(range) = self.memory.touched(address) {
            return Err(Why::Forbidden(range));
        }
        self.last = address;
        Ok(address)
    }

    /// Which of 14 to 16 an entry fails.
    #[cold]
    fn why(&self, level: Level, entry: u64) -> Why {
        if entry & level.reserved() != 0 {
            Why::Bits
        } else if !self.memory.inside(entry & ADDRESS) {
            Why::Outside
        } else {
            Why::NotAbove { before: self.last }
        }
    }
}

/// The present entries of a table, which is inside the window, with their numbers.
fn present<'a>(memory: &Memory<'a>, level: Level, table: &Table) -> impl Iterator<Item = (u64, u64)> + 'a {
    let bytes = memory.page(table.address).chunks_exact(ENTRY_LENGTH);
    let entries = bytes.map(|entry| u64::from_le_bytes(entry.try_into().expect("eight bytes")));
    (0..level.entries()).zip(entries).filter(|(_, entry)| entry & PRESENT != 0)
}
