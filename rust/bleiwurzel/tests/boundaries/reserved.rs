//! The platform's reserved ranges: rule 17 for a range and a table or page, and rule 1 for a range's end and for the count. What the Rust crate
//! cannot hand over, ranges past the count and a count over 16, is asked of the library's own function.

use crate::by_c::{by_c, Given};
use crate::common::*;
use crate::regions::{hold_answered, Answered::*, PAGE_BYTES};
use bleiwurzel::MOST_RESERVED;

const TOP: u64 = 1 << 52;

fn good() -> Image {
    spread(BASE)
}

/// Sixteen ranges, of which this is one and the others are of size 0.
fn sixteen(index: usize, range: (u64, u64)) -> [(u64, u64); MOST_RESERVED] {
    let mut ranges = [(0, 0); MOST_RESERVED];
    ranges[index] = range;
    ranges
}

/// The number with this range as the only one, as the first and as the last of sixteen, which must be one and the same.
fn number_with(name: &str, image: &Image, range: (u64, u64)) -> u32 {
    let number = |ranges: &[(u64, u64)]| {
        let mut image = image.clone();
        image.reserve(ranges);
        asked(name, &image).number
    };
    let numbers = [number(&[range]), number(&sixteen(0, range)), number(&sixteen(MOST_RESERVED - 1, range))];
    assert!(numbers.iter().all(|other| *other == numbers[0]), "{name}: {numbers:?}");
    numbers[0]
}

/// Ranges around and in a table or page: where one begins and ends, counted from the page's first byte, and the number.
const AROUND: [(i64, i64, u32); 17] = [
    (-0x1000, 0, 0),
    (-0x1000, 1, 17),
    (-1, 0, 0),
    (-1, 1, 17),
    (0, 0, 0),
    (0, 1, 17),
    (0, 0x1000, 17),
    (-1, 0x1001, 17),
    (0x7ff, 0x801, 17),
    (0x800, 0x800, 0),
    (0x800, 0x801, 17),
    (0xfff, 0xfff, 0),
    (0xfff, 0x1000, 17),
    (0xfff, 0x2000, 17),
    (0x1000, 0x1000, 0),
    (0x1000, 0x1001, 0),
    (0x1000, 0x2000, 0),
];

#[test]
fn around_every_table_and_page() {
    let image = good();
    let kinds = [("pointer table", POINTERS), ("directory", DIRECTORY), ("page table", TABLE), ("page 0", ONE), ("page 1", TWO)];
    for (kind, page) in kinds {
        for (begin, end, number) in AROUND {
            let name = format!("{begin:#x} to {end:#x} of the {kind}");
            let range = (image.address(page).wrapping_add(begin as u64), (end - begin) as u64);
            assert_eq!(number_with(&name, &image, range), number, "{name}");
        }
    }
}

/// The window lies at the end of what can be addressed, and a range with it.
#[test]
fn up_to_the_highest_end() {
    let mut image = spread(TOP - (ALL * PAGE) as u64);
    image.entry(TABLE, 1, ALL - 1);
    image.maps(0, &[ONE, ALL - 1]);
    for (name, base, size, number) in [
        ("the last byte", TOP - 1, 1, 17),
        ("the last byte and one more", TOP - 1, 2, 1),
        ("the byte before the last page", TOP - PAGE_BYTES - 1, 1, 0),
        ("the first byte of the last page", TOP - PAGE_BYTES, 1, 17),
        ("no byte at the end", TOP, 0, 0),
    ] {
        assert_eq!(number_with(name, &image, (base, size)), number, "{name}");
    }
}

/// Each of sixteen ranges counts, and none where all are clear.
#[test]
fn every_index() {
    let mut image = good();
    let free: Vec<(u64, u64)> = (0..MOST_RESERVED).map(|k| (image.address(12 + k), PAGE_BYTES)).collect();
    image.reserve(&free);
    assert_eq!(asked("all clear", &image).number, 0);
    for index in 0..MOST_RESERVED {
        let mut ranges = free.clone();
        ranges[index] = (image.address(TWO), 1);
        image.reserve(&ranges);
        let name = format!("range {index}");
        assert_eq!(asked(&name, &image).number, 17, "{name}");
    }
}

/// Ranges may overlap each other, and all that rule 17 reads besides.
#[test]
fn ranges_that_overlap() {
    const FREE: u64 = BASE + (TWO as u64 + 1) * PAGE_BYTES;
    const USED: u64 = FREE - 1;
    hold(
        &good(),
        &[
            ("two that overlap behind the pages", |i| i.reserve(&[(FREE, 0x2000), (FREE + 0x1000, 0x2000)]), 0),
            ("the first from a page's last byte on", |i| i.reserve(&[(USED, 0x2001), (FREE + 0x1000, 0x2000)]), 17),
            ("the second from a page's last byte on", |i| i.reserve(&[(FREE + 0x1000, 0x2000), (USED, 0x2001)]), 17),
            ("two that are equal", |i| i.reserve(&[(FREE, 0x1000); 2]), 0),
            ("two that are equal and touch a page", |i| i.reserve(&[(USED, 0x1000); 2]), 17),
            ("one in the other", |i| i.reserve(&[(FREE, 0x3000), (FREE + 0x1000, 0x1000)]), 0),
            ("one in the other, which touches a page", |i| i.reserve(&[(FREE + 0x1000, 0x1000), (USED, 0x3000)]), 17),
            (
                "the hole, the heap and the module",
                |i| i.reserve(&[(0xa0000, 0x60000), (0x1000_0000, 124), (0x2000_0000, 768)]),
                0,
            ),
            ("all below the tables", |i| i.reserve(&[(0, BASE + 0x1000)]), 0),
            ("all below the tables and a byte", |i| i.reserve(&[(0, BASE + 0x1001)]), 17),
            ("all above the pages", |i| i.reserve(&[(FREE, TOP - FREE)]), 0),
            ("all above the pages and a byte", |i| i.reserve(&[(USED, TOP - USED)]), 17),
            ("all", |i| i.reserve(&[(0, TOP)]), 17),
        ],
    );
}

/// Rule 1, at size 0 too.
#[test]
fn ends() {
    let image = good();
    for (name, base, size, number) in [
        ("to 2^52", TOP - 1, 1, 0),
        ("to 2^52 and 1 byte more", TOP - 1, 2, 1),
        ("no byte at 2^52", TOP, 0, 0),
        ("1 byte at 2^52", TOP, 1, 1),
        ("no byte a byte above 2^52", TOP + 1, 0, 1),
        ("no byte at 2^64 - 1", u64::MAX, 0, 1),
        ("all of 2^52 and 1 byte more", 0, TOP + 1, 1),
        ("2^64 - 1 bytes from 0 on", 0, u64::MAX, 1),
        ("an end that wraps to 0", 1, u64::MAX, 1),
        ("an end that wraps to 0, from the last byte on", u64::MAX, 1, 1),
        ("an end that wraps to 1", u64::MAX, 2, 1),
        ("an end that wraps to 2^52", 0u64.wrapping_sub(TOP), TOP << 1, 1),
    ] {
        assert_eq!(number_with(name, &image, (base, size)), number, "{name}");
    }
}

/// The number for this count and all sixteen ranges. All else is as the crate gives it for the ranges within the count; the crate has no more of
/// them than sixteen, and then it is as on every refusal.
fn by_count(image: &Image, count: u32, ranges: &[(u64, u64); MOST_RESERVED]) -> u32 {
    let reserved = std::array::from_fn(|k| [ranges[k / 2].0, ranges[k / 2].1][k % 2]);
    let Given { number, counts, place, digest, pages } = by_c(&image.parts(), &image.platform, count, &reserved, image.places);
    let listed: &[u64] = if number == 0 { &image.listed } else { &[] };
    assert!(pages.iter().enumerate().all(|(k, page)| *page == listed.get(k).copied().unwrap_or(UNTOUCHED)), "{count} ranges");
    let expected = match ranges.get(..count as usize) {
        Some(within) => {
            let mut image = image.clone();
            image.reserve(within);
            let given = asked("the ranges within the count", &image);
            (given.number, [given.pages, given.list], [given.place], given.digest)
        }
        None => (number, [0, 255], [0], [0; 32]),
    };
    assert_eq!((number, counts, place, digest), expected, "{count} ranges");
    number
}

/// What is past the count is ignored; one more in the count, and it counts.
#[test]
fn past_the_count() {
    let image = good();
    let wrong = [((image.address(TWO) + 0xfff, 1), 17), ((TOP - 1, 2), 1), ((TOP + 1, 0), 1), ((u64::MAX, 2), 1)];
    for (index, (range, number)) in (0..MOST_RESERVED).flat_map(|index| wrong.map(|wrong| (index, wrong))) {
        let count = index as u32;
        let ranges = sixteen(index, range);
        assert_eq!(by_count(&image, count, &ranges), 0, "{range:x?} behind {count} ranges");
        assert_eq!(by_count(&image, count + 1, &ranges), number, "{range:x?} as the last of {}", count + 1);
    }
    assert_eq!(by_count(&image, 0, &[(0, TOP); MOST_RESERVED]), 0, "all memory, past a count of 0");
}

/// Also where none of the sixteen hinders; 0x10000 and 2^31 are 0 in fewer bits.
#[test]
fn counts_over_sixteen() {
    let image = good();
    let clear = [(0, 0); MOST_RESERVED];
    for count in [17, 18, 32, 255, 256, 0xffff, 0x1_0000, 0x1_0001, 1 << 31, u32::MAX] {
        assert_eq!(by_count(&image, count, &clear), 1, "{count}");
    }
    for count in 0..=16 {
        assert_eq!(by_count(&image, count, &clear), 0, "{count}");
    }
}

/// Rule 1 comes before rule 2, and before a range is compared with a page.
#[test]
fn order_of_rule_1() {
    let mut image = good();
    let mut ranges = [(0, 0); MOST_RESERVED];
    (ranges[0], ranges[1]) = ((image.address(ONE), 1), (TOP, 1));
    assert_eq!(by_count(&image, 1, &ranges), 17, "a range in a page");
    assert_eq!(by_count(&image, 2, &ranges), 1, "a range in a page, and one that ends above 2^52");
    put(&mut image.heap, BIOS_DATA, 7, 8);
    assert_eq!(by_count(&image, 1, &ranges), 2, "a heap part of 7 bytes, and a range in a page");
    assert_eq!(by_count(&image, 2, &ranges), 1, "a heap part of 7 bytes, and a range that ends above 2^52");
    let clear = [(0, 0); MOST_RESERVED];
    assert_eq!(by_count(&image, 16, &clear), 2, "a heap part of 7 bytes, and 16 ranges");
    assert_eq!(by_count(&image, 17, &clear), 1, "a heap part of 7 bytes, and 17 ranges");
}

/// The page list is tried before the walk, and the walk before the number of pages and the record.
#[test]
fn order_around_the_walk() {
    /// Reserves a byte of the second page and changes something else.
    fn reserving(i: &mut Image, change: fn(&mut Image)) {
        i.reserve(&[(i.address(TWO), 1)]);
        change(i);
    }
    fn one_place(i: &mut Image) {
        i.places = 1;
    }
    fn a_page_more(i: &mut Image) {
        put(&mut i.heap, MLE_SIZE, 0x3000, 8);
    }
    fn another_type(i: &mut Image) {
        i.record[4] = 2;
    }
    hold(
        &good(),
        &[
            ("a reserved page", |i| reserving(i, |_| ()), 17),
            ("a page list of one place", one_place, 13),
            ("a reserved page, and a page list of one place", |i| reserving(i, one_place), 13),
            ("MLE Size of a page more", a_page_more, 21),
            ("a reserved page, and MLE Size of a page more", |i| reserving(i, a_page_more), 17),
            ("a record of another type", another_type, 23),
            ("a reserved page, and a record of another type", |i| reserving(i, another_type), 17),
        ],
    );
}

/// An entry is tried for 14, 15, 16 and 17 in turn; then a table for 18 and 20, and a page for 19 and 20.
#[test]
fn order_in_the_walk() {
    /// The second page by another entry, the page itself reserved or not.
    fn second(i: &mut Image, index: usize, entry: u64, reserved: bool) {
        i.entry_bits(TABLE, 1, 0);
        i.entry_bits(TABLE, index, entry);
        if reserved {
            i.reserve(&[(entry & !0xfff & (TOP - 1), 1)]);
        }
    }
    /// 39 page tables, of which the last is the 41st table, reserved or not.
    fn many_tables(i: &mut Image, reserved: bool) {
        (1..39).for_each(|t| i.entry(DIRECTORY, t, 9 + t));
        if reserved {
            i.reserve(&[(i.address(9 + 38), 1)]);
        }
    }
    fn unprotected(i: &mut Image, reserved: bool) {
        second(i, 1, i.address(TWO) | 1, reserved);
        i.platform.dpr_size = ((ONE + 1) * PAGE) as u64;
    }
    hold(
        &good(),
        &[
            ("a reserved page", |i| second(i, 1, i.address(TWO) | 1, true), 17),
            ("with bit 52 too", |i| second(i, 1, 1 << 52 | i.address(TWO) | 1, true), 14),
            ("a reserved page behind the window", |i| second(i, 1, i.address(ALL) | 1, true), 15),
            ("a reserved page that is not above the first", |i| second(i, 1, i.address(TABLE + 1) | 1, true), 16),
            ("a reserved table, the 41st", |i| many_tables(i, true), 17),
            ("the 41st table", |i| many_tables(i, false), 18),
            ("a reserved page behind a gap", |i| second(i, 2, i.address(TWO) | 1, true), 17),
            ("a page behind a gap", |i| second(i, 2, i.address(TWO) | 1, false), 19),
            ("a reserved page in no region", |i| unprotected(i, true), 17),
        ],
    );
    hold_answered(&good(), &[("a page in no region", |i| unprotected(i, false), Page(TWO))]);
}

/// The base is tried for 14, 15, 17 and 20 before any entry, and an entry before the next one.
#[test]
fn order_of_entries() {
    /// A table base, of which the first byte is reserved.
    fn base(i: &mut Image, base: u64) {
        put(&mut i.heap, TABLE_BASE, base, 8);
        i.reserve(&[(base, 1)]);
    }
    /// A reserved byte in a page, and an entry of a table that has bit 63.
    fn bits(i: &mut Image, reserved: usize, table: usize, index: usize, named: usize) {
        i.reserve(&[(i.address(reserved), 1)]);
        i.entry_bits(table, index, 1 << 63 | i.address(named) | 1);
    }
    hold(
        &good(),
        &[
            ("a reserved base", |i| base(i, i.address(POINTERS)), 17),
            ("a reserved base off its page", |i| base(i, i.address(POINTERS) + 8), 14),
            ("a reserved base behind the window", |i| base(i, i.address(ALL)), 15),
            ("a reserved base before the first pointer's bits", |i| bits(i, POINTERS, POINTERS, 0, DIRECTORY), 17),
            ("a reserved directory after the bits of its own entry", |i| bits(i, DIRECTORY, POINTERS, 0, DIRECTORY), 14),
            ("a reserved directory before the next pointer's bits", |i| bits(i, DIRECTORY, POINTERS, 1, TABLE), 17),
            ("a reserved page before the next one's bits", |i| bits(i, ONE, TABLE, 1, TWO), 17),
            ("a reserved page after the bits of the one before", |i| bits(i, TWO, TABLE, 0, ONE), 14),
            ("a reserved page after the bits of a later table", |i| bits(i, ONE, DIRECTORY, 1, TABLE + 1), 14),
        ],
    );
}
