//! Rules 14 to 19: the table base, entry bits, the window, the order of addresses, forbidden ranges, the number of tables and linear gaps.
//! `protection` has rule 20 of the pages, `tables` that of the tables, and `reserved` the platform's own ranges.
//!
//! Heap and module have at least 124 and 704 bytes here, and a module begins on a page, since lower rules ask for that: an empty heap
//! inside a table, and a heap or module of one byte, cannot be shown by the whole check.

use crate::common::*;
use crate::regions::{hold_answered, Answered::*};

fn good() -> Image {
    spread(BASE)
}

fn table_base(i: &mut Image, base: u64) {
    put(&mut i.heap, TABLE_BASE, base, 8);
}

/// The table base in the window's last page: it names nothing, so 21 is answered where it is accepted.
fn last_page(i: &mut Image) {
    table_base(i, i.address(ALL - 1));
}

#[test]
fn base() {
    const AT: u64 = BASE + (POINTERS * PAGE) as u64;
    hold(
        &good(),
        &[
            ("on a page", |i| table_base(i, AT), 0),
            ("1 byte on", |i| table_base(i, AT + 1), 14),
            ("half a page on", |i| table_base(i, AT + 0x800), 14),
            ("2^52 and 1 byte on", |i| table_base(i, AT + (1 << 52) + 1), 14),
            ("2^52 on", |i| table_base(i, AT + (1 << 52)), 15),
            ("a page below the window", |i| table_base(i, BASE - 0x1000), 15),
            ("the window's first page", |i| table_base(i, BASE), 21),
            ("the window's last page", last_page, 21),
            ("the page behind the window", |i| table_base(i, i.address(ALL)), 15),
            (
                "the last page without its last byte",
                |i| {
                    last_page(i);
                    i.window.pop();
                },
                15,
            ),
            ("an empty window", |i| i.window.clear(), 15),
        ],
    );
}

#[test]
fn base_and_the_hole() {
    fn at(i: &mut Image, window: u64, base: u64) {
        *i = spread(window);
        table_base(i, base);
    }
    hold(
        &good(),
        &[
            ("0x9f000", |i| at(i, 0x9f000, 0x9f000), 21),
            ("0xa0000", |i| at(i, 0x9e000, 0xa0000), 17),
            ("0xff000", |i| at(i, 0xfe000, 0xff000), 17),
            ("0x100000", |i| *i = spread(0xff000), 0),
        ],
    );
}

/// Entry 0 of each kind of table with one more bit: bits 1 to 11 and 52 to 63. The page list on a permission shows that none of the
/// others is taken for a bit of the address.
#[test]
fn entry_bits() {
    let kinds = [("pointer", POINTERS, DIRECTORY, 0x1e6), ("directory", DIRECTORY, TABLE, 0x80), ("page", TABLE, ONE, 0)];
    for (name, table, named, reserved) in kinds {
        for bit in (1..12).chain(52..64) {
            let mut image = good();
            image.entry_bits(table, 0, image.address(named) | 1 | 1 << bit);
            let expected = if bit >= 52 || reserved >> bit & 1 == 1 { 14 } else { 0 };
            let name = format!("{name} entry with bit {bit}");
            assert_eq!(asked(&name, &image).number, expected, "{name}");
        }
    }
}

#[test]
fn absent_entries() {
    fn ones(i: &mut Image, present: u64) {
        for (table, index) in [(POINTERS, 1), (DIRECTORY, 1), (TABLE, 2)] {
            i.entry_bits(table, index, 0xffff_ffff_ffff_fffe | present);
        }
    }
    hold(&good(), &[("ones, but for bit 0", |i| ones(i, 0), 0), ("ones", |i| ones(i, 1), 14)]);
}

#[test]
fn window() {
    fn second(i: &mut Image, page: usize) {
        i.entry(TABLE, 1, page);
        if page < ALL {
            i.maps(0, &[ONE, page]);
        }
    }
    fn cut(i: &mut Image, page: usize, length: usize) {
        second(i, page);
        i.window.truncate(length);
    }
    hold(
        &good(),
        &[
            ("the window's last page", |i| second(i, ALL - 1), 0),
            ("the window's last page without its last byte", |i| cut(i, ALL - 1, ALL * PAGE - 1), 15),
            ("half of the window's last page", |i| cut(i, ALL - 1, ALL * PAGE - 2048), 15),
            ("the page before half a page", |i| cut(i, ALL - 2, ALL * PAGE - 2048), 0),
            ("the page behind the window", |i| second(i, ALL), 15),
            ("a page below the window", |i| i.entry_bits(TABLE, 2, (BASE - 0x1000) | 1), 15),
            ("a page table behind the window", |i| i.entry(DIRECTORY, 1, ALL), 15),
            ("a directory at 2^52 - 4096", |i| i.entry_bits(POINTERS, 1, 0xf_ffff_ffff_f001), 15),
            ("the window moved by a page under its tables", |i| i.platform.window_base += 0x1000, 21),
            ("the window's first page as a page", |i| i.entry(TABLE, 0, 0), 16),
        ],
    );
    hold(&spread((1 << 52) - (ALL * PAGE) as u64), &[("a page at 2^52 - 4096", |i| second(i, ALL - 1), 0)]);
}

#[test]
fn order() {
    fn pair(i: &mut Image, one: usize, two: usize) {
        i.entry(TABLE, 0, one);
        i.entry(TABLE, 1, two);
        if TABLE < one && one < two {
            i.maps(0, &[one, two]);
        }
    }
    hold(
        &good(),
        &[
            ("neighbours", |i| pair(i, 7, 8), 0),
            ("neighbours, exchanged", |i| pair(i, 8, 7), 16),
            ("one page twice", |i| pair(i, 7, 7), 16),
            ("two pages apart", |i| pair(i, 7, 9), 0),
            ("the page behind the page table", |i| pair(i, TABLE + 1, 9), 0),
            ("the page table as a page", |i| pair(i, TABLE, 9), 16),
            ("the pointer table as a page", |i| pair(i, POINTERS, 9), 16),
            (
                "neither above the page before nor clear of the heap",
                |i| {
                    pair(i, 8, 7);
                    i.platform.heap_base = i.address(7);
                },
                16,
            ),
            ("the directory as a page table", |i| i.entry(DIRECTORY, 0, DIRECTORY), 16),
            ("the pointer table as a directory", |i| i.entry(POINTERS, 0, POINTERS), 16),
            ("a page below the pointer table as a directory", |i| i.entry(POINTERS, 0, POINTERS - 1), 16),
        ],
    );
}

/// A heap up to the first byte of a page, or with its last byte there, and one that begins behind it or with its last byte.
#[test]
fn heap() {
    fn before(i: &mut Image, page: usize, more: u64) {
        i.platform.heap_base = i.address(page) - 124 + more;
    }
    fn behind(i: &mut Image, page: usize, less: u64) {
        i.platform.heap_base = i.address(page + 1) - less;
    }
    hold(
        &good(),
        &[
            ("to the pointer table", |i| before(i, POINTERS, 0), 0),
            ("to the pointer table's first byte", |i| before(i, POINTERS, 1), 17),
            ("behind the pointer table", |i| behind(i, POINTERS, 0), 0),
            ("from the pointer table's last byte on", |i| behind(i, POINTERS, 1), 17),
            ("to the directory", |i| before(i, DIRECTORY, 0), 0),
            ("to the directory's first byte", |i| before(i, DIRECTORY, 1), 17),
            ("behind the directory", |i| behind(i, DIRECTORY, 0), 0),
            ("from the directory's last byte on", |i| behind(i, DIRECTORY, 1), 17),
            ("inside the page table", |i| before(i, TABLE, 2048), 17),
            ("to the first page", |i| before(i, ONE, 0), 0),
            ("to the first page's first byte", |i| before(i, ONE, 1), 17),
            ("behind the second page", |i| behind(i, TWO, 0), 0),
            ("from the second page's last byte on", |i| behind(i, TWO, 1), 17),
        ],
    );
    fn longer(i: &mut Image, length: usize) {
        i.platform.heap_base = i.address(TABLE + 1);
        i.heap.resize(length, 0);
    }
    hold(
        &good(),
        &[
            ("bytes behind OsSinitData, up to the first page", |i| longer(i, PAGE), 0),
            ("bytes behind OsSinitData, to its first byte", |i| longer(i, PAGE + 1), 17),
        ],
    );
}

#[test]
fn module() {
    fn at(i: &mut Image, page: usize, length: usize) {
        i.platform.sinit_base = i.address(page);
        i.sinit = crate::common::module(length);
    }
    hold(
        &good(),
        &[
            ("in the pointer table", |i| at(i, POINTERS, 704), 17),
            ("between pointer table and directory", |i| at(i, POINTERS + 1, 4096), 0),
            ("and 64 bytes of the directory", |i| at(i, POINTERS + 1, 4096 + 64), 17),
            ("up to the pointer table", |i| at(i, POINTERS - 1, 4096), 0),
            ("and 64 bytes of the pointer table", |i| at(i, POINTERS - 1, 4096 + 64), 17),
            ("in the directory", |i| at(i, DIRECTORY, 704), 17),
            ("in the page table", |i| at(i, TABLE, 704), 17),
            ("in the first page", |i| at(i, ONE, 704), 17),
            ("between the pages", |i| at(i, ONE + 1, 4096), 0),
            ("and 64 bytes of the second page", |i| at(i, ONE + 1, 4096 + 64), 17),
            ("in the second page", |i| at(i, TWO, 704), 17),
            ("behind the second page", |i| at(i, TWO + 1, 4096), 0),
        ],
    );
}

/// Pages below, in and above 0xa0000 to 0xfffff; the tables lie below it.
#[test]
fn hole() {
    fn pages(i: &mut Image, window: u64, pages: &[usize]) {
        *i = spread(window);
        i.entry_bits(TABLE, 1, 0);
        for (index, page) in pages.iter().enumerate() {
            i.entry(TABLE, index, *page);
        }
        i.maps(0, pages);
    }
    hold(
        &good(),
        &[
            ("0x9f000", |i| pages(i, 0x97000, &[8]), 0),
            ("0x9f000 and 0xa0000", |i| pages(i, 0x97000, &[8, 9]), 17),
            ("0xa0000", |i| pages(i, 0x97000, &[9]), 17),
        ],
    );
    fn long(i: &mut Image, page: usize) {
        *i = spread(0x97000);
        i.window.resize(0x80 * PAGE, 0);
        i.platform.dpr_size = 0x80 * PAGE as u64;
        i.entry(TABLE, 1, page);
        i.maps(0, &[ONE, page]);
    }
    hold(&good(), &[("0xff000", |i| long(i, 0x68), 17), ("0x100000", |i| long(i, 0x69), 0)]);
}

#[test]
fn tables() {
    /// A page behind all tables, which the first page table maps.
    const MAPPED: usize = 46;
    /// So many page tables from page 5 on under one directory, the last of them by an entry of its own.
    fn under_one(i: &mut Image, count: usize, last: u64) {
        i.window[TABLE * PAGE..].fill(0);
        for t in 0..count - 1 {
            i.entry(DIRECTORY, t, TABLE + t);
        }
        i.entry_bits(DIRECTORY, count - 1, last);
        i.entry(TABLE, 0, MAPPED);
        i.maps(0, &[MAPPED]);
    }
    /// Four directories in pages 3 to 6, and so many page tables under the last of them.
    fn under_four(i: &mut Image, count: usize) {
        i.window[DIRECTORY * PAGE..].fill(0);
        for d in 0..4 {
            i.entry(POINTERS, d, 3 + d);
        }
        for t in 0..count {
            i.entry(6, t, 7 + t);
        }
        i.entry(7, 0, MAPPED);
        i.maps(3 * 512 * 512, &[MAPPED]);
    }
    hold(
        &good(),
        &[
            ("38 page tables, 40 tables in all", |i| under_one(i, 38, i.address(42) | 1), 0),
            ("39 page tables, 41 tables in all", |i| under_one(i, 39, i.address(43) | 1), 18),
            ("the 41st with bit 7", |i| under_one(i, 39, i.address(43) | 0x81), 14),
            ("the 41st behind the window", |i| under_one(i, 39, i.address(ALL) | 1), 15),
            ("the 41st not above the 40th", |i| under_one(i, 39, i.address(42) | 1), 16),
            (
                "the 41st in the heap",
                |i| {
                    under_one(i, 39, i.address(43) | 1);
                    i.platform.heap_base = i.address(43);
                },
                17,
            ),
            ("4 directories and 35 page tables", |i| under_four(i, 35), 0),
            ("4 directories and 36 page tables", |i| under_four(i, 36), 18),
        ],
    );
}

#[test]
fn linear_pages() {
    /// Pages 20 and 21 by an index of the first page table and one of a page table.
    fn indices(i: &mut Image, a: usize, second: usize, b: usize) {
        i.window[TABLE * PAGE..].fill(0);
        i.entry(DIRECTORY, 1, TABLE + 1);
        i.entry(TABLE, a, 20);
        i.entry(second, b, 21);
        i.maps(a, &[20, 21]);
    }
    /// The last page below 1 GiB and one above, under two pointers.
    fn gibibyte(i: &mut Image, index: usize) {
        i.window[DIRECTORY * PAGE..].fill(0);
        for (table, at, named) in [(POINTERS, 1, 4), (DIRECTORY, 511, 5), (4, 0, 6), (5, 511, 7), (6, index, 8)] {
            i.entry(table, at, named);
        }
        i.maps(512 * 512 - 1, &[7, 8]);
    }
    /// Two pages, and two more from an index on.
    fn runs(i: &mut Image, index: usize) {
        i.entry(TABLE, index, 11);
        i.entry(TABLE, index + 1, 12);
        i.maps(0, &[ONE, TWO, 11, 12]);
    }
    /// One page by its three indices.
    fn one(i: &mut Image, pointer: usize, directory: usize, table: usize) {
        i.window.fill(0);
        i.entry(POINTERS, pointer, DIRECTORY);
        i.entry(DIRECTORY, directory, TABLE);
        i.entry(TABLE, table, ONE);
        i.maps((pointer * 512 + directory) * 512 + table, &[ONE]);
    }
    hold(
        &good(),
        &[
            ("indices 0 and 1", |i| indices(i, 0, TABLE, 1), 0),
            ("indices 0 and 2", |i| indices(i, 0, TABLE, 2), 19),
            ("indices 5 and 6", |i| indices(i, 5, TABLE, 6), 0),
            ("511, and 0 of the next table", |i| indices(i, 511, TABLE + 1, 0), 0),
            ("511, and 1 of the next table", |i| indices(i, 511, TABLE + 1, 1), 19),
            ("510, and 0 of the next table", |i| indices(i, 510, TABLE + 1, 0), 19),
            ("the pages around 1 GiB", |i| gibibyte(i, 0), 0),
            ("a gap at 1 GiB", |i| gibibyte(i, 1), 19),
            ("two pages and two behind them", |i| runs(i, 2), 0),
            ("two pages, a gap and two pages", |i| runs(i, 5), 19),
            ("no page", |i| i.window[TABLE * PAGE..].fill(0), 21),
            ("the highest linear page", |i| one(i, 3, 511, 511), 0),
            ("pointer 2, directory entry 7, entry 9", |i| one(i, 2, 7, 9), 0),
        ],
    );
}

/// A level is finished before the next one begins, and an entry before the next one.
#[test]
fn breadth_first() {
    /// Page tables in page 5 and page b, by a second directory entry with more bits; the first one maps a page.
    fn levels(i: &mut Image, b: usize, page: usize, bits: u64) {
        i.window[TABLE * PAGE..].fill(0);
        i.entry_bits(DIRECTORY, 1, i.address(b) | 1 | bits);
        i.entry(TABLE, 0, page);
        if b < page && bits == 0 {
            i.maps(0, &[page]);
        }
    }
    hold(
        &good(),
        &[
            ("page tables in 5 and 6, a page in 7", |i| levels(i, 6, 7, 0), 0),
            ("page tables in 5 and 7, a page in 6", |i| levels(i, 7, 6, 0), 16),
            ("a reserved bit of directory entry 1 before the first page's address", |i| levels(i, 6, 1, 0x80), 14),
            ("the first page's address", |i| levels(i, 6, 1, 0), 16),
            (
                "pointer entry 1 behind the window before a reserved bit of directory entry 0",
                |i| {
                    i.entry(POINTERS, 1, ALL);
                    i.entry_bits(DIRECTORY, 0, i.address(TABLE) | 0x81);
                },
                15,
            ),
        ],
    );
    /// DPR holds the tables and the first page.
    fn first_page_only(i: &mut Image) {
        i.platform.dpr_size = ((ONE + 1) * PAGE) as u64;
    }
    hold_answered(
        &good(),
        &[
            ("the second page's protection", first_page_only, Page(TWO)),
            (
                "the second page's protection before the third one's bits",
                |i| {
                    i.entry_bits(TABLE, 2, 1 << 63 | i.address(11) | 1);
                    first_page_only(i);
                },
                Page(TWO),
            ),
            ("the third page's bits", |i| i.entry_bits(TABLE, 2, 1 << 63 | i.address(11) | 1), Number(14)),
            (
                "a gap before the protection of the same page",
                |i| {
                    i.entry_bits(TABLE, 1, 0);
                    i.entry(TABLE, 2, TWO);
                    first_page_only(i);
                },
                Number(19),
            ),
        ],
    );
}
