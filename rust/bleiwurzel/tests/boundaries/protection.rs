//! Rule 20 of the pages: all lie in the same one of DPR, low PMR and high PMR. The first page picks every region that holds it, each later page
//! keeps those of them that hold it too, and the page that keeps none is refused. `tables` has the rule of the tables.
//!
//! The pages stand from page 7 of the window on, but for one test one behind the other, so that a region can end with each of them. The tables
//! stand before them, and need a region as well. A low PMR ends at or below 4 GiB and a high one begins at or above, by rule 5. So in most tests
//! the first page begins at 4 GiB: the low PMR holds the tables and nothing else, and DPR and the high PMR can begin and end anywhere about the
//! pages. Below 4 GiB one of DPR and the low PMR has to begin with the tables, and only the other can begin at a page.

use crate::common::*;
use crate::regions::{Answered::*, *};

const FIRST: usize = 7;
const P1: u64 = 1 << 32;
const P2: u64 = P1 + 0x1000;
const P3: u64 = P1 + 0x2000;
/// Where the window begins whose first page is at 4 GiB.
const ACROSS: u64 = P1 - (FIRST * PAGE) as u64;

/// The page that is refused.
const FIRST_PAGE: Answered = Page(FIRST);
const SECOND_PAGE: Answered = Page(FIRST + 1);
const THIRD_PAGE: Answered = Page(FIRST + 2);

/// So many pages, all in DPR.
fn row(base: u64, count: usize) -> Image {
    let mut image = spread(base);
    let pages: Vec<usize> = (FIRST..FIRST + count).collect();
    image.entry_bits(TABLE, 1, 0);
    pages.iter().enumerate().for_each(|(index, page)| image.entry(TABLE, index, *page));
    image.maps(0, &pages);
    image
}

/// DPR and the high PMR; the tables are in the low PMR, which holds all of the window below 4 GiB.
fn dpr_high(i: &mut Image, dpr: Region, high: Region) {
    let below = i.platform.window_base;
    i.set_regions(dpr, (below, P1 - below), high);
}

fn dpr_low(i: &mut Image, dpr: Region, low: Region) {
    i.set_regions(dpr, low, NONE);
}

#[test]
fn one_page() {
    hold_answered(
        &row(ACROSS, 1),
        &[
            ("in DPR", |i| dpr_high(i, (P1, 0x1000), NONE), Number(0)),
            ("in the high PMR", |i| dpr_high(i, NONE, (P1, 0x1000)), Number(0)),
            ("in no region", |i| dpr_high(i, NONE, NONE), FIRST_PAGE),
            ("DPR 1 byte short", |i| dpr_high(i, (P1, 0xfff), NONE), FIRST_PAGE),
            ("DPR from the second byte on", |i| dpr_high(i, (P1 + 1, 0x1000), NONE), FIRST_PAGE),
            ("the high PMR 1 byte short", |i| dpr_high(i, NONE, (P1, 0xfff)), FIRST_PAGE),
            ("the high PMR from the second byte on", |i| dpr_high(i, NONE, (P1 + 1, 0x1000)), FIRST_PAGE),
            ("across two that abut, all but a byte in DPR", |i| dpr_high(i, (P1, 0xfff), (P1 + 0xfff, 0x1000)), FIRST_PAGE),
            ("across two that abut, all but a byte in the high PMR", |i| dpr_high(i, (P1, 1), (P1 + 1, 0xfff)), FIRST_PAGE),
        ],
    );
}

#[test]
fn two_pages() {
    hold_answered(
        &row(ACROSS, 2),
        &[
            ("both in DPR", |i| dpr_high(i, (P1, 0x2000), NONE), Number(0)),
            ("both in the high PMR", |i| dpr_high(i, NONE, (P1, 0x2000)), Number(0)),
            ("in no region", |i| dpr_high(i, NONE, NONE), FIRST_PAGE),
            ("DPR 1 byte short", |i| dpr_high(i, (P1, 0x1fff), NONE), SECOND_PAGE),
            ("DPR from the second byte on", |i| dpr_high(i, (P1 + 1, 0x1fff), NONE), FIRST_PAGE),
            ("the high PMR 1 byte short", |i| dpr_high(i, NONE, (P1, 0x1fff)), SECOND_PAGE),
            ("the high PMR from the second byte on", |i| dpr_high(i, NONE, (P1 + 1, 0x1fff)), FIRST_PAGE),
            ("the first in DPR, the second in none", |i| dpr_high(i, (P1, 0x1000), NONE), SECOND_PAGE),
            ("the second in DPR, the first in none", |i| dpr_high(i, (P2, 0x1000), NONE), FIRST_PAGE),
            ("the first in the high PMR, the second in none", |i| dpr_high(i, NONE, (P1, 0x1000)), SECOND_PAGE),
            ("the second in the high PMR, the first in none", |i| dpr_high(i, NONE, (P2, 0x1000)), FIRST_PAGE),
        ],
    );
}

/// A page in each of two regions that abut; then one of them holds both pages, and is alone in that.
#[test]
fn one_common_region() {
    hold_answered(
        &row(ACROSS, 2),
        &[
            ("the first in DPR, the second in the high PMR", |i| dpr_high(i, (P1, 0x1000), (P2, 0x1000)), SECOND_PAGE),
            ("both in DPR, the second in the high PMR", |i| dpr_high(i, (P1, 0x2000), (P2, 0x1000)), Number(0)),
            ("the second in the high PMR, DPR 1 byte short", |i| dpr_high(i, (P1, 0x1fff), (P2, 0x1000)), SECOND_PAGE),
            ("the first in DPR, both in the high PMR", |i| dpr_high(i, (P1, 0x1000), (P1, 0x2000)), Number(0)),
            ("the first in DPR, the high PMR 1 byte short", |i| dpr_high(i, (P1, 0x1000), (P1, 0x1fff)), SECOND_PAGE),
            (
                "the first in DPR, the high PMR from the second byte on",
                |i| dpr_high(i, (P1, 0x1000), (P1 + 1, 0x1fff)),
                SECOND_PAGE,
            ),
            ("the first in the high PMR, the second in DPR", |i| dpr_high(i, (P2, 0x1000), (P1, 0x1000)), SECOND_PAGE),
            ("both in the high PMR, the second in DPR", |i| dpr_high(i, (P2, 0x1000), (P1, 0x2000)), Number(0)),
            ("the second in DPR, the high PMR 1 byte short", |i| dpr_high(i, (P2, 0x1000), (P1, 0x1fff)), SECOND_PAGE),
            ("the first in the high PMR, both in DPR", |i| dpr_high(i, (P1, 0x2000), (P1, 0x1000)), Number(0)),
            (
                "the first in the high PMR, DPR from the second byte on",
                |i| dpr_high(i, (P1 + 1, 0x1fff), (P1, 0x1000)),
                SECOND_PAGE,
            ),
            ("the second across both", |i| dpr_high(i, (P1, 0x1800), (P1 + 0x1800, 0x1000)), SECOND_PAGE),
            ("the first across both", |i| dpr_high(i, (P1 - 0x800, 0x1000), (P1 + 0x800, 0x1800)), FIRST_PAGE),
        ],
    );
}

/// Two equal regions are two: where one is a byte short, the other still holds both pages.
#[test]
fn equal_regions() {
    hold_answered(
        &row(ACROSS, 2),
        &[
            ("both pages in both", |i| dpr_high(i, (P1, 0x2000), (P1, 0x2000)), Number(0)),
            ("DPR 1 byte shorter", |i| dpr_high(i, (P1, 0x1fff), (P1, 0x2000)), Number(0)),
            ("the high PMR 1 byte shorter", |i| dpr_high(i, (P1, 0x2000), (P1, 0x1fff)), Number(0)),
            ("both 1 byte shorter", |i| dpr_high(i, (P1, 0x1fff), (P1, 0x1fff)), SECOND_PAGE),
            ("both from the second byte on", |i| dpr_high(i, (P1 + 1, 0x1fff), (P1 + 1, 0x1fff)), FIRST_PAGE),
        ],
    );
}

/// The first page stands a page above 4 GiB, so that the high PMR can begin before it.
#[test]
fn regions_that_overlap() {
    const P1: u64 = (1 << 32) + 0x1000;
    const P2: u64 = P1 + 0x1000;
    hold_answered(
        &row(ACROSS + 0x1000, 2),
        &[
            (
                "by a page, each with one of the pages alone",
                |i| dpr_high(i, (P1 - 0x800, 0x2000), (P1 + 0x800, 0x2000)),
                SECOND_PAGE,
            ),
            ("by the first page, DPR holds both", |i| dpr_high(i, (P1, 0x2000), (P1 - 0x1000, 0x2000)), Number(0)),
            ("by the first page, DPR 1 byte short", |i| dpr_high(i, (P1, 0x1fff), (P1 - 0x1000, 0x2000)), SECOND_PAGE),
            ("by the first page, the high PMR holds both", |i| dpr_high(i, (P1 - 0x1000, 0x2000), (P1, 0x2000)), Number(0)),
            ("by the first page, the high PMR 1 byte short", |i| dpr_high(i, (P1 - 0x1000, 0x2000), (P1, 0x1fff)), SECOND_PAGE),
            ("by the second page, DPR holds both", |i| dpr_high(i, (P1, 0x2000), (P2, 0x2000)), Number(0)),
            ("by the second page, DPR from the second byte on", |i| dpr_high(i, (P1 + 1, 0x1fff), (P2, 0x2000)), FIRST_PAGE),
            ("by the second page, the high PMR holds both", |i| dpr_high(i, (P2, 0x2000), (P1, 0x2000)), Number(0)),
            (
                "by the second page, the high PMR from the second byte on",
                |i| dpr_high(i, (P2, 0x2000), (P1 + 1, 0x1fff)),
                FIRST_PAGE,
            ),
        ],
    );
}

/// The page between the two is none of the image, and lies in their region all the same.
#[test]
fn pages_with_a_hole() {
    const SECOND: u64 = ACROSS + (TWO * PAGE) as u64;
    hold_answered(
        &spread(ACROSS),
        &[
            ("both in DPR", |i| dpr_high(i, (P1, 0x3000), NONE), Number(0)),
            ("DPR 1 byte short", |i| dpr_high(i, (P1, 0x2fff), NONE), Page(TWO)),
            ("DPR from the second byte on", |i| dpr_high(i, (P1 + 1, 0x2fff), NONE), Page(ONE)),
            ("a region for each, the hole in none", |i| dpr_high(i, (P1, 0x1000), (SECOND, 0x1000)), Page(TWO)),
            ("a region for each, the hole in both", |i| dpr_high(i, (P1, 0x2000), (SECOND - 0x1000, 0x2000)), Page(TWO)),
            ("both in the high PMR, the first in DPR", |i| dpr_high(i, (P1, 0x1000), (P1, 0x3000)), Number(0)),
            ("the first in DPR, the high PMR 1 byte short", |i| dpr_high(i, (P1, 0x1000), (P1, 0x2fff)), Page(TWO)),
        ],
    );
}

/// The chain: the first page in one region alone, the second in both, the third in the other alone.
#[test]
fn three_pages() {
    hold_answered(
        &row(ACROSS, 3),
        &[
            ("a chain from DPR to the high PMR", |i| dpr_high(i, (P1, 0x2000), (P2, 0x2000)), THIRD_PAGE),
            ("DPR a page longer", |i| dpr_high(i, (P1, 0x3000), (P2, 0x2000)), Number(0)),
            ("DPR a page longer but for a byte", |i| dpr_high(i, (P1, 0x2fff), (P2, 0x2000)), THIRD_PAGE),
            ("the high PMR from a page before on", |i| dpr_high(i, (P1, 0x2000), (P1, 0x3000)), Number(0)),
            ("the high PMR from a page before on but for a byte", |i| dpr_high(i, (P1, 0x2000), (P1 + 1, 0x2fff)), THIRD_PAGE),
            ("a chain from the high PMR to DPR", |i| dpr_high(i, (P2, 0x2000), (P1, 0x2000)), THIRD_PAGE),
            ("the high PMR a page longer", |i| dpr_high(i, (P2, 0x2000), (P1, 0x3000)), Number(0)),
            ("the high PMR a page longer but for a byte", |i| dpr_high(i, (P2, 0x2000), (P1, 0x2fff)), THIRD_PAGE),
            ("the first two in both, the third in DPR", |i| dpr_high(i, (P1, 0x3000), (P1, 0x2000)), Number(0)),
            ("the first two in both, the third in DPR but for a byte", |i| dpr_high(i, (P1, 0x2fff), (P1, 0x2000)), THIRD_PAGE),
            ("the first two in both, the third in none", |i| dpr_high(i, (P1, 0x2000), (P1, 0x2000)), THIRD_PAGE),
            ("the first two in DPR, the third in the high PMR", |i| dpr_high(i, (P1, 0x2000), (P3, 0x1000)), THIRD_PAGE),
        ],
    );
}

/// The pages of a window below 4 GiB, where the high PMR holds nothing.
const L1: u64 = BASE + (FIRST * PAGE) as u64;
const L2: u64 = L1 + 0x1000;
const L3: u64 = L1 + 0x2000;
/// The tables of such a window.
const TABLES: Region = up_to(L1);

/// From the tables of such a window on up to an address.
const fn up_to(end: u64) -> Region {
    (BASE, end - BASE)
}

#[test]
fn below_4_gib() {
    hold_answered(
        &row(BASE, 2),
        &[
            ("both in the low PMR", |i| dpr_low(i, TABLES, (L1, 0x2000)), Number(0)),
            ("the low PMR 1 byte short", |i| dpr_low(i, TABLES, (L1, 0x1fff)), SECOND_PAGE),
            ("the low PMR from the second byte on", |i| dpr_low(i, TABLES, (L1 + 1, 0x1fff)), FIRST_PAGE),
            ("the first in the low PMR, the second in none", |i| dpr_low(i, TABLES, (L1, 0x1000)), SECOND_PAGE),
            ("the first in the low PMR but for a byte", |i| dpr_low(i, TABLES, (L1, 0xfff)), FIRST_PAGE),
            ("the second in the low PMR, the first in none", |i| dpr_low(i, TABLES, (L2, 0x1000)), FIRST_PAGE),
            ("both in DPR", |i| dpr_low(i, (L1, 0x2000), TABLES), Number(0)),
            ("DPR 1 byte short", |i| dpr_low(i, (L1, 0x1fff), TABLES), SECOND_PAGE),
            ("DPR from the second byte on", |i| dpr_low(i, (L1 + 1, 0x1fff), TABLES), FIRST_PAGE),
            ("in no region, the tables in DPR", |i| dpr_low(i, TABLES, NONE), FIRST_PAGE),
            ("in no region, the tables in the low PMR", |i| dpr_low(i, NONE, TABLES), FIRST_PAGE),
            ("all in both", |i| dpr_low(i, up_to(L3), up_to(L3)), Number(0)),
            ("all in both, DPR 1 byte shorter", |i| dpr_low(i, up_to(L3 - 1), up_to(L3)), Number(0)),
            ("all in both, the low PMR 1 byte shorter", |i| dpr_low(i, up_to(L3), up_to(L3 - 1)), Number(0)),
            ("all in both, both 1 byte shorter", |i| dpr_low(i, up_to(L3 - 1), up_to(L3 - 1)), SECOND_PAGE),
        ],
    );
}

/// As `one_common_region` and `regions_that_overlap`.
#[test]
fn one_common_region_below_4_gib() {
    hold_answered(
        &row(BASE, 2),
        &[
            ("the first in DPR, the second in the low PMR", |i| dpr_low(i, up_to(L2), (L2, 0x1000)), SECOND_PAGE),
            ("both in DPR, the second in the low PMR", |i| dpr_low(i, up_to(L3), (L2, 0x1000)), Number(0)),
            ("the second in the low PMR, DPR 1 byte short", |i| dpr_low(i, up_to(L3 - 1), (L2, 0x1000)), SECOND_PAGE),
            ("the first in DPR, both in the low PMR", |i| dpr_low(i, up_to(L2), (L1, 0x2000)), Number(0)),
            ("the first in DPR, the low PMR 1 byte short", |i| dpr_low(i, up_to(L2), (L1, 0x1fff)), SECOND_PAGE),
            ("the first in DPR, the low PMR from the second byte on", |i| dpr_low(i, up_to(L2), (L1 + 1, 0x1fff)), SECOND_PAGE),
            ("the first in the low PMR, the second in DPR", |i| dpr_low(i, (L2, 0x1000), up_to(L2)), SECOND_PAGE),
            ("both in the low PMR, the second in DPR", |i| dpr_low(i, (L2, 0x1000), up_to(L3)), Number(0)),
            ("the second in DPR, the low PMR 1 byte short", |i| dpr_low(i, (L2, 0x1000), up_to(L3 - 1)), SECOND_PAGE),
            ("the first in the low PMR, both in DPR", |i| dpr_low(i, (L1, 0x2000), up_to(L2)), Number(0)),
            ("the first in the low PMR, DPR from the second byte on", |i| dpr_low(i, (L1 + 1, 0x1fff), up_to(L2)), SECOND_PAGE),
            ("the first across both, DPR before", |i| dpr_low(i, up_to(L1 + 0x800), (L1 + 0x800, 0x1800)), FIRST_PAGE),
            ("the first across both, the low PMR before", |i| dpr_low(i, (L1 + 0x800, 0x1800), up_to(L1 + 0x800)), FIRST_PAGE),
            ("the second across both, DPR before", |i| dpr_low(i, up_to(L2 + 0x800), (L2 + 0x800, 0x1000)), SECOND_PAGE),
            ("the second across both, the low PMR before", |i| dpr_low(i, (L2 + 0x800, 0x1000), up_to(L2 + 0x800)), SECOND_PAGE),
            ("a page alone in each, which overlap", |i| dpr_low(i, up_to(L2 + 0x800), (L1 + 0x800, 0x2000)), SECOND_PAGE),
        ],
    );
}

#[test]
fn three_pages_below_4_gib() {
    hold_answered(
        &row(BASE, 3),
        &[
            ("a chain from DPR to the low PMR", |i| dpr_low(i, up_to(L3), (L2, 0x2000)), THIRD_PAGE),
            ("DPR a page longer", |i| dpr_low(i, up_to(L3 + 0x1000), (L2, 0x2000)), Number(0)),
            ("DPR a page longer but for a byte", |i| dpr_low(i, up_to(L3 + 0xfff), (L2, 0x2000)), THIRD_PAGE),
            ("the low PMR from a page before on", |i| dpr_low(i, up_to(L3), (L1, 0x3000)), Number(0)),
            ("the low PMR from a page before on but for a byte", |i| dpr_low(i, up_to(L3), (L1 + 1, 0x2fff)), THIRD_PAGE),
            ("a chain from the low PMR to DPR", |i| dpr_low(i, (L2, 0x2000), up_to(L3)), THIRD_PAGE),
            ("the low PMR a page longer", |i| dpr_low(i, (L2, 0x2000), up_to(L3 + 0x1000)), Number(0)),
            ("the low PMR a page longer but for a byte", |i| dpr_low(i, (L2, 0x2000), up_to(L3 + 0xfff)), THIRD_PAGE),
        ],
    );
}

/// The first page ends at 4 GiB and the second begins there. The low PMR ends there and the high one begins there, so that no PMR holds both. The
/// tables are in the low PMR, too.
#[test]
fn across_4_gib() {
    const ONE: u64 = (1 << 32) - 0x1000;
    const HERE: u64 = ONE - (FIRST * PAGE) as u64;
    const LOW_ONE: Region = (HERE, (1 << 32) - HERE);
    const HIGH_ONE: Region = (1 << 32, 0x1000);
    /// The tables alone.
    const BEFORE: Region = (HERE, ONE - HERE);
    hold_answered(
        &row(HERE, 2),
        &[
            ("the first in the low PMR, the second in the high PMR", |i| i.set_regions(NONE, LOW_ONE, HIGH_ONE), SECOND_PAGE),
            ("and both in DPR", |i| i.set_regions((ONE, 0x2000), LOW_ONE, HIGH_ONE), Number(0)),
            ("and both in DPR but for the last byte", |i| i.set_regions((ONE, 0x1fff), LOW_ONE, HIGH_ONE), SECOND_PAGE),
            ("and both in DPR but for the first byte", |i| i.set_regions((ONE + 1, 0x1fff), LOW_ONE, HIGH_ONE), SECOND_PAGE),
            ("and the first in DPR", |i| i.set_regions((ONE, 0x1000), LOW_ONE, HIGH_ONE), SECOND_PAGE),
            ("and the second in DPR", |i| i.set_regions((1 << 32, 0x1000), LOW_ONE, HIGH_ONE), SECOND_PAGE),
            ("both in DPR alone", |i| i.set_regions((ONE, 0x2000), BEFORE, NONE), Number(0)),
            ("both in DPR alone but for the last byte", |i| i.set_regions((ONE, 0x1fff), BEFORE, NONE), SECOND_PAGE),
            ("both in DPR alone but for the first byte", |i| i.set_regions((ONE + 1, 0x1fff), BEFORE, NONE), FIRST_PAGE),
            ("a low PMR over both", |i| i.set_regions(NONE, (HERE, (1 << 32) - HERE + 0x1000), NONE), Number(5)),
        ],
    );
}

/// Three pages are permitted exactly where a region reaches from the first byte of all to the last; else one of them is refused, and no table.
fn every_two(base: u64, with: fn(&mut Image, Region, Region), dprs: &[Region], pmrs: &[Region]) {
    let mut image = row(base, 3);
    let first = image.listed[0];
    let whole = |(base, size): Region| base <= first && base + size >= first + 0x3000;
    for (dpr, pmr) in dprs.iter().flat_map(|dpr| pmrs.iter().map(move |pmr| (*dpr, *pmr))) {
        with(&mut image, dpr, pmr);
        let name = format!("DPR {dpr:x?}, PMR {pmr:x?}");
        let expected = if whole(dpr) || whole(pmr) { "0" } else { "20 for page " };
        let given = answered(&name, &image);
        assert!(given.starts_with(expected), "{name}: {given}");
    }
}

/// Every region that begins at one of the addresses and ends at the pages' ends or a byte beside them.
fn every_region(first: u64, begins: &[u64]) -> Vec<Region> {
    let ends = [0x1000, 0x1fff, 0x2000, 0x2fff, 0x3000, 0x3001].map(|end| first + end);
    begins.iter().flat_map(|begin| ends.map(|end| (*begin, end.saturating_sub(*begin)))).collect()
}

/// The addresses at which two of three pages begin, and a byte beside them.
fn about(first: u64) -> [u64; 5] {
    [first - 1, first, first + 1, first + 0x1000, first + 0x1001]
}

/// The first page stands a page above 4 GiB, so that the high PMR can begin before it.
#[test]
fn every_dpr_and_high_pmr() {
    let all = every_region(P1 + 0x1000, &about(P1 + 0x1000));
    every_two(ACROSS + 0x1000, dpr_high, &all, &all);
}

/// One of the two begins with the tables.
#[test]
fn every_dpr_and_low_pmr() {
    let first = BASE + (FIRST * PAGE) as u64;
    let (all, with_tables) = (every_region(first, &about(first)), every_region(first, &[BASE]));
    every_two(BASE, dpr_low, &all, &with_tables);
    every_two(BASE, dpr_low, &with_tables, &all);
}

/// The page at which none is left: of a chain from DPR to the high PMR the third of four.
#[test]
fn at_that_page() {
    fn chain(i: &mut Image) {
        dpr_high(i, (P1, 0x2000), (P2, 0x3000));
    }
    fn wrong_bits(i: &mut Image, index: usize) {
        i.entry_bits(TABLE, index, 1 << 63 | i.address(FIRST + index) | 1);
    }
    fn chain_with(i: &mut Image, index: usize) {
        chain(i);
        wrong_bits(i, index);
    }
    hold_answered(
        &row(ACROSS, 4),
        &[
            ("the chain", chain, THIRD_PAGE),
            ("all in DPR", |i| dpr_high(i, (P1, 0x4000), (P2, 0x3000)), Number(0)),
            ("the second one's bits before the third one's region", |i| chain_with(i, 1), Number(14)),
            ("the third one's bits before its region", |i| chain_with(i, 2), Number(14)),
            ("the third one's region before the fourth one's bits", |i| chain_with(i, 3), THIRD_PAGE),
            ("the fourth one's bits", |i| wrong_bits(i, 3), Number(14)),
        ],
    );
}

/// The second page is in another region than the first, and breaks a rule that is tried before.
#[test]
fn after_the_other_rules_of_a_page() {
    /// A page below the first one lies in the low PMR.
    fn second(i: &mut Image, index: usize, page: usize) {
        i.entry_bits(TABLE, 1, 0);
        i.entry(TABLE, index, page);
        dpr_high(i, (P1, 0x1000), if page > FIRST { (i.address(page), 0x1000) } else { NONE });
    }
    hold_answered(
        &row(ACROSS, 2),
        &[
            ("its region alone", |i| second(i, 1, 8), SECOND_PAGE),
            ("behind the window", |i| second(i, 1, ALL), Number(15)),
            ("below the first page", |i| second(i, 1, 6), Number(16)),
            (
                "in the heap",
                |i| {
                    second(i, 1, 8);
                    i.platform.heap_base = P2;
                },
                Number(17),
            ),
            ("after a gap", |i| second(i, 2, 8), Number(19)),
        ],
    );
}

/// MLE Size says two pages and the tables map a third: 21 where it is in the region of the others.
#[test]
fn a_page_past_the_size() {
    fn third(i: &mut Image, dpr: Region, high: Region) {
        i.entry(TABLE, 2, 9);
        dpr_high(i, dpr, high);
    }
    hold_answered(
        &row(ACROSS, 2),
        &[
            ("in DPR like the others", |i| third(i, (P1, 0x3000), NONE), Number(21)),
            ("in DPR but for a byte", |i| third(i, (P1, 0x2fff), NONE), THIRD_PAGE),
            ("in the high PMR alone", |i| third(i, (P1, 0x2000), (P3, 0x1000)), THIRD_PAGE),
            ("in the high PMR like the others", |i| third(i, (P1, 0x2000), (P1, 0x3000)), Number(21)),
            ("in the high PMR like the others but for a byte", |i| third(i, (P1, 0x2000), (P1, 0x2fff)), THIRD_PAGE),
        ],
    );
}

/// The second page is named by another page table, or under another directory, and has the high PMR.
#[test]
fn pages_of_two_tables() {
    fn named(i: &mut Image, entries: &[(usize, usize, usize)], first: usize, dpr: Region) {
        i.window[DIRECTORY * PAGE..].fill(0);
        entries.iter().for_each(|(table, index, page)| i.entry(*table, *index, *page));
        i.maps(first, &[7, 8]);
        dpr_high(i, dpr, (P2, 0x1000));
    }
    fn tables(i: &mut Image, dpr: Region) {
        named(i, &[(DIRECTORY, 0, 5), (DIRECTORY, 1, 6), (5, 511, 7), (6, 0, 8)], 511, dpr);
    }
    fn directories(i: &mut Image, dpr: Region) {
        let entries = [(POINTERS, 1, 4), (DIRECTORY, 511, 5), (4, 0, 6), (5, 511, 7), (6, 0, 8)];
        named(i, &entries, 512 * 512 - 1, dpr);
    }
    hold_answered(
        &row(ACROSS, 2),
        &[
            ("two tables, both pages in DPR", |i| tables(i, (P1, 0x2000)), Number(0)),
            ("two tables, DPR 1 byte short", |i| tables(i, (P1, 0x1fff)), SECOND_PAGE),
            ("two directories, both pages in DPR", |i| directories(i, (P1, 0x2000)), Number(0)),
            ("two directories, DPR 1 byte short", |i| directories(i, (P1, 0x1fff)), SECOND_PAGE),
        ],
    );
}

/// DPR holds the tables and all pages of the largest image but the last, which lies in the low PMR.
#[test]
fn the_last_of_16384_pages() {
    const PAGES: usize = 16_384;
    let mut image = image(&Shape { pages: PAGES, ..Shape::default() });
    let last = image.listed[PAGES - 1];
    for (end, expected) in
        [(last + 0x1000, "0".to_string()), (last + 0xfff, format!("20 for page {last:#x} to {:#x}", last + 0xfff))]
    {
        dpr_low(&mut image, (BASE, end - BASE), (last, 0x1000));
        assert_eq!(answered("16,384 pages", &image), expected, "DPR up to {end:#x}");
    }
}

/// Without a page there is none to protect: 21 and not 20.
#[test]
fn no_page() {
    fn emptied(i: &mut Image) {
        i.window[TABLE * PAGE..].fill(0);
        dpr_high(i, NONE, NONE);
    }
    hold_answered(
        &row(ACROSS, 1),
        &[
            ("no page, and the tables alone in a region", emptied, Number(21)),
            ("a page, and the tables alone in a region", |i| dpr_high(i, NONE, NONE), FIRST_PAGE),
        ],
    );
}
