//! Where the walk stops, and why.

use super::{Forbidden, Level, Regions, Table, ADDRESS, ENTRY_LENGTH};
use crate::{Place, Stop};

/// What of the tables is wrong.
#[derive(Clone, Copy, Debug, PartialEq, Eq)]
pub struct Fault {
    pub at: At,
    pub why: Why,
}

/// The table base, or an entry.
#[derive(Clone, Copy, Debug, PartialEq, Eq)]
pub enum At {
    Base(u64),
    Entry {
        level: Level,
        /// The address of the table.
        table: u64,
        index: u64,
        /// The number of the entry among all of its level; of a page its linear number.
        number: u64,
        entry: u64,
    },
}

impl At {
    pub(super) fn entry(level: Level, table: &Table, index: u64, entry: u64) -> Self {
        At::Entry { level, table: table.address, index, number: table.first + index, entry }
    }

    /// The address of the table or the page that it names.
    pub fn named(&self) -> u64 {
        match self {
            At::Base(base) => *base,
            At::Entry { entry, .. } => entry & ADDRESS,
        }
    }
}

/// The physical address of an entry of a table.
pub fn entry_address(table: u64, index: u64) -> u64 {
    table + ENTRY_LENGTH as u64 * index
}

/// Why what is named will not do.
#[derive(Clone, Copy, Debug, PartialEq, Eq)]
pub enum Why {
    /// 14: the table base is not on a page; the entry has a bit set that is reserved.
    NotOnAPage,
    Bits,
    /// 15.
    Outside,
    /// 16: it does not exceed the address before it.
    NotAbove {
        before: u64,
    },
    /// 17: it touches this range.
    Forbidden(Forbidden),
    /// 18.
    TooManyTables,
    /// 19: another linear page was expected.
    Gap {
        expected: u64,
    },
    /// 20: no region holds the table.
    TableUnprotected,
    /// 20: none of these regions, which hold all pages before it, holds the page. `first` is the first of those pages, where there is one.
    PageUnprotected {
        common: Regions,
        first: Option<u64>,
    },
}

impl From<Fault> for Stop {
    fn from(fault: Fault) -> Self {
        let number = match fault.why {
            Why::NotOnAPage | Why::Bits => 14,
            Why::Outside => 15,
            Why::NotAbove { .. } => 16,
            Why::Forbidden(_) => 17,
            Why::TooManyTables => 18,
            Why::Gap { .. } => 19,
            Why::TableUnprotected | Why::PageUnprotected { .. } => 20,
        };
        Stop { number, place: Place::Walk(fault) }
    }
}
