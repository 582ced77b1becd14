//! Rule 20 of the tables: each table page by itself, the base too, lies wholly in any one of DPR, low PMR and high PMR. `protection` has the rule of
//! the pages.
//!
//! To have one table in no region, or in one of its own, all below it lies in a second region and all above it in a third. By rule 5 a low PMR ends
//! at or below 4 GiB and a high one begins at or above, so 4 GiB is laid to where the table begins or ends. Addresses rise in the walk, so all
//! pages are above all tables.

use crate::common::*;
use crate::regions::{Answered::*, *};

const BASE_REFUSED: Answered = Table(POINTERS, "pointer table");

/// Whether 4 GiB is where a table begins or where it ends.
#[derive(Clone, Copy)]
enum Border {
    Begin,
    End,
}

/// Where a window begins of which a page has 4 GiB at this border.
const fn window_for(page: usize, border: Border) -> u64 {
    let pages = match border {
        Border::Begin => page,
        Border::End => page + 1,
    };
    (1 << 32) - (pages * PAGE) as u64
}

/// The region that a table has for itself. What is below it is then in the low PMR or in DPR, and what is above it in the high PMR or in DPR.
#[derive(Clone, Copy, Debug)]
enum Own {
    Dpr,
    Low,
    High,
}

/// Three regions: this one, one from the window's first byte up to an address, and one from another address to its end.
fn three(i: &mut Image, own: Own, region: Region, below_to: u64, above_from: u64) {
    let below = (i.address(0), below_to - i.address(0));
    let above = (above_from, i.address(ALL) - above_from);
    match own {
        Own::Dpr => i.set_regions(region, below, above),
        Own::Low => i.set_regions(below, region, above),
        Own::High => i.set_regions(above, below, region),
    }
}

/// All of the window in a region but for a page, which has 4 GiB at a border.
fn without(i: &mut Image, page: usize) {
    three(i, Own::Dpr, NONE, i.address(page), i.address(page + 1));
}

/// An image of the pages 44 and 45 of the window, the first of them with this linear number. The entries are table, index and the page that is
/// named.
fn of_entries(base: u64, first: usize, entries: &[(usize, usize, usize)]) -> Image {
    let mut image = spread(base);
    image.window.fill(0);
    entries.iter().for_each(|(table, index, page)| image.entry(*table, *index, *page));
    image.maps(first, &[44, 45]);
    image
}

/// Two directories, each with a page table that maps a page.
fn two_of_each(base: u64) -> Image {
    of_entries(base, 512 * 512 - 1, &[(1, 0, 3), (1, 1, 4), (3, 511, 5), (4, 0, 6), (5, 511, 44), (6, 0, 45)])
}

/// So many page tables from page 5 on under one directory, all but the first of them empty.
fn page_tables(base: u64, count: usize) -> Image {
    let named = (0..count).map(|t| (DIRECTORY, t, TABLE + t));
    let entries: Vec<_> = named.chain([(POINTERS, 0, DIRECTORY), (TABLE, 0, 44), (TABLE, 1, 45)]).collect();
    of_entries(base, 0, &entries)
}

/// Images by their tables, each of a window that begins anywhere: their directories, and where their page tables begin and end.
type Layout = (&'static str, fn(u64) -> Image, &'static [usize], std::ops::Range<usize>);

const LAYOUTS: [Layout; 5] = [
    ("one of each", spread, &[DIRECTORY], TABLE..TABLE + 1),
    ("two directories, each with a page table", two_of_each, &[3, 4], 5..7),
    (
        "an empty directory before the one with the page table, and one behind it",
        |base| {
            let entries = [(1, 0, 2), (1, 2, 3), (1, 3, 4), (3, 7, 6), (6, 5, 44), (6, 6, 45)];
            of_entries(base, (2 * 512 + 7) * 512 + 5, &entries)
        },
        &[2, 3, 4],
        6..7,
    ),
    (
        "an empty page table before the two with the pages, and one behind them",
        |base| {
            let entries = [(1, 0, 3), (3, 0, 5), (3, 8, 6), (3, 9, 7), (3, 511, 8), (6, 511, 44), (7, 0, 45)];
            of_entries(base, 9 * 512 - 1, &entries)
        },
        &[3],
        5..9,
    ),
    ("the most tables", |base| page_tables(base, 38), &[DIRECTORY], 5..43),
];

/// What is said of a row, the table's own region, where the one below it ends and the one above it begins, and whether all of the table is in one.
type Around = (&'static str, Region, u64, u64, bool);

/// Regions about a table that lies between two addresses. The one below may reach into it where that is below 4 GiB, and the one above where that
/// is above.
fn around(begin: u64, end: u64, border: Border) -> Vec<Around> {
    let all_but_the_first = (begin + 1, PAGE_BYTES - 1);
    let all_but_the_last = (begin, PAGE_BYTES - 1);
    let by_itself = [
        ("all of it", (begin, PAGE_BYTES), begin, end, true),
        ("none of it", NONE, begin, end, false),
        ("no byte at its first one", (begin, 0), begin, end, false),
        ("all but its last byte", all_but_the_last, begin, end, false),
        ("all but its first byte", all_but_the_first, begin, end, false),
    ];
    let with_another = match border {
        Border::End => [
            ("all but its first byte, which is in the one below", all_but_the_first, begin + 1, end, false),
            ("its last byte, and the others in the one below", (end - 1, 1), end - 1, end, false),
            ("all but its first byte, and all but its last in the one below", all_but_the_first, end - 1, end, false),
            ("none of it, which is in the one below", NONE, end, end, true),
        ],
        Border::Begin => [
            ("all but its last byte, which is in the one above", all_but_the_last, begin, end - 1, false),
            ("its first byte, and the others in the one above", (begin, 1), begin, begin + 1, false),
            ("all but its last byte, and all but its first in the one above", all_but_the_last, begin, begin + 1, false),
            ("none of it, which is in the one above", NONE, begin, begin, true),
        ],
    };
    [&by_itself[..], &with_another].concat()
}

/// Permitted where all of a table is in a region; else that table is refused, and no other and no page.
fn hold_around(name: &str, good: &Image, page: usize, kind: &'static str, own: Own, border: Border) {
    for (row, region, below_to, above_from, held) in around(good.address(page), good.address(page + 1), border) {
        let mut image = good.clone();
        three(&mut image, own, region, below_to, above_from);
        let expected = if held { Number(0) } else { Table(page, kind) };
        let name = format!("{name}, {kind} in page {page}, {own:?}: {row}");
        assert_eq!(answered(&name, &image), expected.said(&image), "{name}");
    }
}

/// Every table of every layout has each of the three regions for itself, under ANY and under LIST.
#[test]
fn every_table_in_every_region() {
    let owns = [(Own::Dpr, Border::Begin), (Own::Dpr, Border::End), (Own::Low, Border::End), (Own::High, Border::Begin)];
    for (layout, image, directories, page_tables) in LAYOUTS {
        let directories = directories.iter().map(|page| (*page, "directory"));
        let tables = directories.chain(page_tables.map(|page| (page, "page table")));
        for (page, kind) in tables.chain([(POINTERS, "pointer table")]) {
            for (own, border) in owns {
                let any = image(window_for(page, border));
                hold_around(&format!("ANY, {layout}"), &any, page, kind, own, border);
                hold_around(&format!("LIST, {layout}"), &under_list(&any), page, kind, own, border);
            }
        }
    }
}

/// Holds the check to the rows under ANY and under LIST.
#[track_caller]
fn hold_both(any: &Image, rows: &[Row]) {
    hold_answered(any, rows);
    hold_answered(&under_list(any), rows);
}

/// Tables pick no region for the pages and for each other.
#[test]
fn other_regions_than_the_pages() {
    /// DPR from the window's first byte on up to a page of it, and the low PMR from a page on up to a byte.
    fn two(i: &mut Image, dpr_to: usize, low_from: usize, low_to: u64) {
        let (dpr, low) = (from_page_to(i, 0, dpr_to), i.address(low_from));
        i.set_regions(dpr, (low, low_to - low), NONE);
    }
    const END: u64 = BASE + ((TWO + 1) * PAGE) as u64;
    hold_both(
        &spread(BASE),
        &[
            ("all in no region", |i| i.set_regions(NONE, NONE, NONE), BASE_REFUSED),
            ("the tables in DPR, the pages in the low PMR", |i| two(i, ONE, ONE, END), Number(0)),
            ("the tables in DPR, the pages in the low PMR but for a byte", |i| two(i, ONE, ONE, END - 1), Page(TWO)),
            ("the tables and the first page in DPR, both pages in the low PMR", |i| two(i, ONE + 1, ONE, END), Number(0)),
            ("the tables and the first page in DPR, the second in the low PMR", |i| two(i, ONE + 1, TWO, END), Page(TWO)),
            ("the base in DPR, all else in the low PMR", |i| two(i, DIRECTORY, DIRECTORY, END), Number(0)),
            ("base and directory in DPR, all else in the low PMR", |i| two(i, TABLE, TABLE, END), Number(0)),
            ("base and directory in DPR, the pages in the low PMR", |i| two(i, TABLE, ONE, END), Table(TABLE, "page table")),
            (
                "the base in DPR, page table and pages in the low PMR",
                |i| two(i, DIRECTORY, TABLE, END),
                Table(DIRECTORY, "directory"),
            ),
            ("all but the base in the low PMR", |i| two(i, 0, DIRECTORY, END), BASE_REFUSED),
        ],
    );
}

/// An entry with bit 63.
fn bits(i: &mut Image, table: usize, index: usize, named: usize) {
    i.entry_bits(table, index, 1 << 63 | i.address(named) | 1);
}

/// A table in no region, and something else that is wrong.
fn and(i: &mut Image, page: usize, change: fn(&mut Image)) {
    without(i, page);
    change(i);
}

/// An entry that names the window's first page, which is in no region; all others are in DPR.
fn naming_the_first(i: &mut Image, table: usize, index: usize) {
    let dpr = from_page_to(i, 1, ALL);
    i.set_regions(dpr, NONE, NONE);
    i.entry(table, index, 0);
}

/// The base is tried for 14, 15 and 17 before 20, and for 20 before any entry.
#[test]
fn order_of_the_base() {
    fn at(i: &mut Image, base: u64) {
        put(&mut i.heap, TABLE_BASE, base, 8);
    }
    /// In no region, and something else that is wrong.
    fn and_else(i: &mut Image, change: fn(&mut Image)) {
        and(i, POINTERS, change);
    }
    fn first_bits(i: &mut Image) {
        bits(i, POINTERS, 0, DIRECTORY);
    }
    fn directory_outside(i: &mut Image) {
        i.entry(POINTERS, 0, ALL);
    }
    fn empty(i: &mut Image) {
        i.window[POINTERS * PAGE..][..PAGE].fill(0);
    }
    hold_both(
        &spread(window_for(POINTERS, Border::Begin)),
        &[
            ("in no region", |i| without(i, POINTERS), BASE_REFUSED),
            ("in no region and off its page", |i| and_else(i, |i| at(i, i.address(POINTERS) + 8)), Number(14)),
            ("in no region and behind the window", |i| and_else(i, |i| at(i, i.address(ALL))), Number(15)),
            ("in no region and in the heap", |i| and_else(i, |i| i.platform.heap_base = i.address(POINTERS)), Number(17)),
            ("in no region and reserved", |i| and_else(i, |i| i.reserve(&[(i.address(POINTERS) + 0xfff, 1)])), Number(17)),
            ("in no region, before the first pointer's bits", |i| and_else(i, first_bits), BASE_REFUSED),
            ("the first pointer's bits", first_bits, Number(14)),
            ("in no region, before a directory behind the window", |i| and_else(i, directory_outside), BASE_REFUSED),
            ("a directory behind the window", directory_outside, Number(15)),
            ("in no region and empty", |i| and_else(i, empty), BASE_REFUSED),
            ("empty", empty, Number(21)),
        ],
    );
}

/// A directory is tried for 14 to 17 before 20, and for 20 before the next entry and before any entry of a directory.
#[test]
fn order_of_directories() {
    hold_both(
        &two_of_each(window_for(3, Border::Begin)),
        &[
            ("a directory", |i| without(i, 3), Table(3, "directory")),
            ("after its own bits", |i| and(i, 3, |i| bits(i, 1, 0, 3)), Number(14)),
            ("after the window", |i| and(i, 3, |i| i.entry(1, 0, ALL)), Number(15)),
            ("after the order of addresses", |i| naming_the_first(i, 1, 0), Number(16)),
            ("after the heap", |i| and(i, 3, |i| i.platform.heap_base = i.address(3)), Number(17)),
            ("before the next pointer's bits", |i| and(i, 3, |i| bits(i, 1, 1, 4)), Table(3, "directory")),
            ("the next pointer's bits", |i| bits(i, 1, 1, 4), Number(14)),
        ],
    );
    hold_both(
        &two_of_each(window_for(4, Border::Begin)),
        &[
            ("the second directory", |i| without(i, 4), Table(4, "directory")),
            ("after the first pointer's bits", |i| and(i, 4, |i| bits(i, 1, 0, 3)), Number(14)),
            ("before the bits of the first directory's entry", |i| and(i, 4, |i| bits(i, 3, 511, 5)), Table(4, "directory")),
            ("the bits of the first directory's entry", |i| bits(i, 3, 511, 5), Number(14)),
        ],
    );
}

/// A page table is tried for 14 to 17 before 20, and for 20 before the next entry and before any page.
#[test]
fn order_of_page_tables() {
    hold_both(
        &two_of_each(window_for(5, Border::Begin)),
        &[
            ("a page table", |i| without(i, 5), Table(5, "page table")),
            ("after its own bits", |i| and(i, 5, |i| bits(i, 3, 511, 5)), Number(14)),
            ("after the window", |i| and(i, 5, |i| i.entry(3, 511, ALL)), Number(15)),
            ("after the order of addresses", |i| naming_the_first(i, 3, 511), Number(16)),
            ("after the heap", |i| and(i, 5, |i| i.platform.heap_base = i.address(5)), Number(17)),
            ("before the bits of the second directory's entry", |i| and(i, 5, |i| bits(i, 4, 0, 6)), Table(5, "page table")),
            ("the bits of the second directory's entry", |i| bits(i, 4, 0, 6), Number(14)),
        ],
    );
    hold_both(
        &two_of_each(window_for(6, Border::Begin)),
        &[
            ("the second page table", |i| without(i, 6), Table(6, "page table")),
            ("after the bits of the first directory's entry", |i| and(i, 6, |i| bits(i, 3, 511, 5)), Number(14)),
            ("before the first page's bits", |i| and(i, 6, |i| bits(i, 5, 511, 44)), Table(6, "page table")),
            ("the first page's bits", |i| bits(i, 5, 511, 44), Number(14)),
        ],
    );
}

/// A table's 20 comes before 19 and 20 of every page, and before 21.
#[test]
fn before_the_pages() {
    /// Another entry for the second page.
    fn gap(i: &mut Image) {
        i.entry_bits(6, 0, 0);
        i.entry(6, 1, 45);
    }
    fn a_page_more(i: &mut Image) {
        put(&mut i.heap, MLE_SIZE, 0x3000, 8);
    }
    /// The window up to a page of it in DPR, and nothing else in a region.
    fn up_to(i: &mut Image, page: usize) {
        let dpr = from_page_to(i, 0, page);
        i.set_regions(dpr, NONE, NONE);
    }
    hold_both(
        &two_of_each(window_for(6, Border::Begin)),
        &[
            ("a gap between the pages", gap, Number(19)),
            ("a table, before a gap between the pages", |i| and(i, 6, gap), Table(6, "page table")),
            ("all tables, and no page", |i| up_to(i, 7), Page(44)),
            ("all tables but the last one, and no page", |i| up_to(i, 6), Table(6, "page table")),
            ("MLE Size of a page more", a_page_more, Number(21)),
            ("a table, before MLE Size of a page more", |i| and(i, 6, a_page_more), Table(6, "page table")),
        ],
    );
}

/// The 41st table is refused with 18, whether it has a region or not; the 40th must have one.
#[test]
fn after_the_number_of_tables() {
    const LAST: Answered = Table(42, "page table");
    let (at_40, at_41) = (window_for(42, Border::Begin), window_for(43, Border::Begin));
    hold_both(
        &page_tables(at_40, 38),
        &[("40 tables", |_| (), Number(0)), ("40 tables, the last in no region", |i| without(i, 42), LAST)],
    );
    hold_both(
        &page_tables(at_40, 39),
        &[("41 tables", |_| (), Number(18)), ("41 tables, the one before the last in no region", |i| without(i, 42), LAST)],
    );
    hold_both(&page_tables(at_41, 39), &[("41 tables, the last in no region", |i| without(i, 43), Number(18))]);
}
