//! What is said of rules 14 to 20: the table base or the entry at which the walk stopped, and why.

use super::{heap, on_a_page, reserved_range, words, Asked, Words};
use crate::{MemoryRange, MOST_TABLES, PAGE_SIZE};
use std::fmt;
use twin::walk::{entry_address, forbidden, page_at, regions, At, Fault, Forbidden, Level, Memory, Regions, Why, ENTRIES};

pub fn said(fault: Fault, asked: &Asked) -> Option<Words> {
    let place = place(fault.at, asked)?;
    let page = page_at(fault.at.named());
    let address = format!("{:#x}", page.base);
    Some(match fault.why {
        Why::NotOnAPage => words(place, on_a_page(), address),
        Why::Bits => of_bits(place, fault.at)?,
        Why::Outside => {
            let window = MemoryRange { base: asked.platform.window_base, size: asked.parts.window.len() as u64 };
            words(place, format!("{PAGE_SIZE} bytes inside the window, {}", shown(&window)), shown(&page))
        }
        Why::NotAbove { before } => words(place, format!("an address above {before:#x}, the one before it in the walk"), address),
        Why::Forbidden(which) => {
            let (_, range) = forbidden(asked.parts, asked.platform).find(|(other, _)| *other == which)?;
            words(place, format!("clear of {}, {}", forbidden_name(which), shown(&range)), shown(&page))
        }
        Why::TooManyTables => {
            let expected = format!("at most {MOST_TABLES} table pages, the base counted");
            words(place, expected, format!("{address}, table page {}", MOST_TABLES + 1))
        }
        Why::Gap { expected } => of_gap(place, fault.at, expected)?,
        Why::TableUnprotected => of_table(place, fault.at, &page, &all_regions(asked)?),
        Why::PageUnprotected { common, first } => {
            let holding = Memory::new(asked.parts, asked.platform, &asked.os_sinit_data()?).holding(page.base);
            let (common, others) = all_regions(asked)?.into_iter().partition(|region| common.contains(region.index));
            of_page(place, &page, common, first.map(|first| of_others(others, holding, first)))
        }
    })
}

fn level_name(level: Level) -> &'static str {
    match level {
        Level::Pointer => "pointer table",
        Level::Directory => "directory",
        Level::Page => "page table",
    }
}

fn place(at: At, asked: &Asked) -> Option<String> {
    let (level, table, index, number) = match at {
        At::Base(_) => return Some(heap::place(&asked.os_sinit_data()?, "page table base", 8)),
        At::Entry { level, table, index, number, .. } => (level, table, index, number),
    };
    let in_the_tree = match level {
        Level::Pointer => String::new(),
        Level::Directory => format!(", under entry {} of the pointer table", number / ENTRIES),
        Level::Page => format!(", which maps linear {:#x}", number * PAGE_SIZE),
    };
    let address = entry_address(table, index);
    let offset = address - asked.platform.window_base;
    let name = level_name(level);
    Some(format!("entry {index} of the {name} at {table:#x} (physical {address:#x}, window offset {offset:#x}){in_the_tree}"))
}

fn of_bits(place: String, at: At) -> Option<Words> {
    let (level, entry) = match at {
        At::Base(_) => return None,
        At::Entry { level, entry, .. } => (level, entry),
    };
    let expected = match level {
        Level::Pointer => "bits 1, 2, 5 to 8 and 52 to 63 clear",
        Level::Directory => "bits 7 and 52 to 63 clear",
        Level::Page => "bits 52 to 63 clear",
    };
    let wrong = entry & level.reserved();
    let bits: Vec<String> = (0..64).filter(|bit| wrong >> bit & 1 == 1).map(|bit| bit.to_string()).collect();
    let word = if bits.len() == 1 { "bit" } else { "bits" };
    Some(words(place, expected, format!("{entry:#018x}, with {word} {} set", bits.join(", "))))
}

fn forbidden_name(which: Forbidden) -> String {
    match which {
        Forbidden::Hole => "the range below 1 MiB".to_string(),
        Forbidden::Heap => "the heap".to_string(),
        Forbidden::Module => "the SINIT module".to_string(),
        Forbidden::Reserved(index) => reserved_range(index),
    }
}

fn of_gap(place: String, at: At, expected: u64) -> Option<Words> {
    let found = match at {
        At::Base(_) => return None,
        At::Entry { number, .. } => number,
    };
    let before = expected - 1;
    let expected = format!("the next page at linear {:#x}, behind {:#x}", expected * PAGE_SIZE, before * PAGE_SIZE);
    Some(words(place, expected, format!("linear {:#x}", found * PAGE_SIZE)))
}

/// A region that is protected against DMA.
#[derive(Clone, Copy)]
struct Region {
    index: usize,
    range: MemoryRange,
}

impl fmt::Display for Region {
    fn fmt(&self, f: &mut fmt::Formatter) -> fmt::Result {
        write!(f, "{} ({})", ["DPR", "PMR low", "PMR high"][self.index], shown(&self.range))
    }
}

fn all_regions(asked: &Asked) -> Option<Vec<Region>> {
    let regions = regions(asked.platform, &asked.os_sinit_data()?);
    Some((0..).zip(regions).map(|(index, range)| Region { index, range }).collect())
}

/// Of a table: any one region will do, whatever those of other tables and of the pages are.
fn of_table(place: String, at: At, table: &MemoryRange, regions: &[Region]) -> Words {
    let name = match at {
        At::Base(_) => level_name(Level::Pointer),
        At::Entry { level: Level::Pointer, .. } => level_name(Level::Directory),
        At::Entry { .. } => level_name(Level::Page),
    };
    let found = format!("table page {} ({name})", shown(table));
    words(place, one_of(regions, false), found).noted(partly(regions, table))
}

/// Of a page that none of the common regions holds. Of a later page there are notes why none of the others will do.
fn of_page(place: String, page: &MemoryRange, common: Vec<Region>, others: Option<Vec<String>>) -> Words {
    let later = others.is_some();
    let notes = others.unwrap_or_else(|| partly(&common, page));
    words(place, one_of(&common, later), format!("page {}", shown(page))).noted(notes)
}

/// Why none of the other regions will do for a later page. A region is one range and the pages ascend, so one with the first page and this
/// one has those between too: where another region holds this page, it is the first that it does not hold.
fn of_others(others: Vec<Region>, holding: Regions, first: u64) -> Vec<String> {
    let why = |region: &Region| match holding.contains(region.index) {
        true => format!("{region} holds it, but not the first page, {}", shown(&page_at(first))),
        false => format!("{region} does not hold it"),
    };
    others.iter().map(why).collect()
}

/// The regions of which one must hold a table or a page, and for a later page why it is these.
fn one_of(regions: &[Region], later: bool) -> String {
    let shown: Vec<String> = regions.iter().map(Region::to_string).collect();
    let (one_of, which) = if shown.len() == 1 { ("", "which") } else { ("one of ", "each of which") };
    let why = if later { format!(", {which} holds every page before it") } else { String::new() };
    format!("wholly in {one_of}{}{why}", shown.join(", "))
}

/// Which of the regions hold some bytes of a table or a page that none holds wholly.
fn partly(regions: &[Region], page: &MemoryRange) -> Vec<String> {
    let some = regions.iter().filter(|region| region.range.touches(page));
    some.map(|region| format!("{region} holds a part of it only")).collect()
}

fn shown(range: &MemoryRange) -> String {
    if range.size == 0 {
        return "of size 0".to_string();
    }
    format!("{:#x} to {:#x}", range.base, range.end() - 1)
}
