//! Images too large for a capture, on both sides of the limits of their size, and page lists of all lengths.

mod common;

use bleiwurzel::{check, Answer, Permission};
use common::*;
use plain_sha256::digest_in_parts;

/// The limits as the rules have them, apart from the crate's constants.
const PAGES: usize = 16_384;
const TABLES: usize = 40;
const WINDOW: usize = 128 << 20;
const HEAP: usize = 1 << 20;

fn number(image: &Image) -> u32 {
    asked("", image).number
}

fn of(shape: Shape) -> Image {
    image(&shape)
}

#[test]
fn two_pages() {
    let image = of(Shape::default());
    let digest = digest_in_parts(&image.bytes(), 0);
    assert_eq!(asked("two pages", &image), Answer { number: 0, pages: 2, list: 255, place: 0, digest });
    let permission = check(&image.parts(), &image.platform, &mut [0; 2]);
    assert_eq!(permission, Ok(Permission { pages: 2, list: None, digest }));
}

#[test]
fn pages_16384_and_16385() {
    assert_eq!(asked("16,384 pages", &of(Shape { pages: PAGES, ..Shape::default() })).pages as usize, PAGES);
    let mut more = of(Shape { pages: PAGES + 1, ..Shape::default() });
    more.places = PAGES + 1;
    assert_eq!(number(&more), 12);
    put(&mut more.heap, MLE_SIZE, (PAGES * PAGE) as u64, 8);
    assert_eq!(number(&more), 21);
}

#[test]
fn pages_16384_from_the_middle_of_a_table_over_two_directories() {
    let image = of(Shape { pages: PAGES, first: 512 * 512 - 100, ..Shape::default() });
    assert_eq!(asked("16,384 pages", &image).pages as usize, PAGES);
}

/// 16,384 pages take 32 page tables; with the directory and the pointer table these are 34.
#[test]
fn tables_40_and_41() {
    let with_tables = |tables| number(&of(Shape { pages: PAGES, empty_tables: tables - 34, ..Shape::default() }));
    assert_eq!([TABLES, TABLES + 1].map(with_tables), [0, 18]);
}

#[test]
fn window_of_128_mib_and_one_byte_more() {
    let small = of(Shape::default()).window.len();
    let with_spare = |spare| of(Shape { spare, ..Shape::default() });
    let whole = with_spare(WINDOW - small);
    assert_eq!((whole.window.len(), number(&whole)), (WINDOW, 0));
    assert_eq!(number(&with_spare(WINDOW - small + 1)), 1);
}

#[test]
fn the_last_page_of_a_window_of_128_mib() {
    let mut image = spread(BASE);
    image.window.resize(WINDOW, 0);
    image.platform.dpr_size = WINDOW as u64;
    let last = WINDOW / PAGE - 1;
    image.entry(TABLE, 1, last);
    image.maps(0, &[ONE, last]);
    assert_eq!(number(&image), 0);
    image.entry(TABLE, 1, last + 1);
    assert_eq!(number(&image), 15);
}

#[test]
fn heap_of_1_mib_and_one_byte_more() {
    let with_spare = |heap_spare| of(Shape { heap_spare, ..Shape::default() });
    let whole = with_spare(HEAP - 124);
    assert_eq!((whole.heap.len(), number(&whole)), (HEAP, 0));
    assert_eq!(number(&with_spare(HEAP - 123)), 1);
}

#[test]
fn page_lists_of_all_lengths() {
    for pages in [1, 2, 7, 513, 4096, PAGES] {
        let mut image = of(Shape { pages, first: 3, ..Shape::default() });
        for (places, expected) in [(0, 13), (pages - 1, 13), (pages, 0), (pages + 1, 0), (pages + 5000, 0)] {
            image.places = places;
            assert_eq!(number(&image), expected, "{pages} pages, {places} places");
        }
    }
}
