//! The rows of the race, and what is said about those whose name does not say it all.

use crate::lists;
use crate::row::{check, read, verify, Row, AIM_OF_LISTS, AIM_OF_OTHERS, AIM_OF_PAGES};
use inputs::{MemoryRange, Platform, Reserved, MOST_PAGES, MOST_RESERVED, NO_LIST, PAGE_SIZE};
use plain_sha256::digest_in_parts;
use samples::*;
use std::rc::Rc;

const PAGES: usize = 4096;
/// The MLE header is refused.
const HEADER: u32 = 22;
/// The last of eight lists.
const LAST: u32 = 7;

/// All rows, and the notes.
pub fn all() -> (Vec<Row>, Vec<String>) {
    let mut rows = vec![image_of("image: 4,096 pages", PAGES, AIM_OF_PAGES).named()];
    let notes = policies(&mut rows);
    rows.push(image_of("image of 16,384 pages", MOST_PAGES, AIM_OF_PAGES));
    rows.push(image_of("image of two pages", 2, AIM_OF_OTHERS));
    let names = [
        ["walk, 4,096 pages", "walk, 4,096 pages, 16 ranges beside the window", "walk, 4,096 pages, 16 ranges in the window"],
        ["walk, 16,384 pages", "walk, 16,384 pages, 16 ranges beside the window", "walk, 16,384 pages, 16 ranges in the window"],
    ];
    rows.extend(names.into_iter().zip([PAGES, MOST_PAGES]).flat_map(|(names, pages)| walks(names, pages)));
    rows.push(read("policy file read, 65,536 bytes", policy_file(&lists::unsigned([9; 32])).0, 8));
    rows.push(verify("RSA verification, 3,072 bits", lists::stored("one-3072.data", 384)));
    rows.push(verify("RSA verification, 2,048 bits", lists::stored("one-2048.data", 256)));
    (rows, notes)
}

/// An image that is permitted under ANY.
fn image_of(name: &'static str, pages: usize, aim: f64) -> Row {
    let image = Rc::new(image(&Shape { pages, ..Shape::default() }));
    check(name, aim, &image, image.platform, 0, NO_LIST)
}

/// The images under eight lists. The notes say how many signatures are to be verified.
fn policies(rows: &mut Vec<Row>) -> Vec<String> {
    let plain = image(&Shape::default());
    let digest = digest_in_parts(&plain.bytes(), 0);
    let stored = lists::stored("one-3072.data", 384);
    let cases = [
        (
            "lists: eight, the last permits",
            AIM_OF_LISTS,
            true,
            lists::unsigned(digest),
            "the seven before the last name other images",
        ),
        (
            "lists, signed: eight, the last permits",
            AIM_OF_LISTS,
            true,
            lists::signed_for_others(&stored),
            "the seven before the last name other images, so their signatures are not looked at",
        ),
        (
            "lists, signed, that all name the image",
            AIM_OF_OTHERS,
            false,
            lists::signed_like(&stored, digest),
            "all name the image, and only the last one's signature verifies",
        ),
    ];
    let mut notes = Vec::new();
    for (name, aim, named, lists, how) in cases {
        let image = Rc::new(with_lists(&plain, &lists));
        rows.push(Row { named, ..check(name, aim, &image, image.platform, 0, LAST) });
        let count = lists::verifications(&lists, &digest);
        notes
            .push(format!("{name}: a file of 65,536 bytes and an image of two pages; {how}; signatures to be verified: {count}"));
    }
    notes
}

/// The check up to the digest, which one byte of the MLE header's mark refuses: without reserved ranges, with as many as there may be below and above the
/// window, and with as many in its last pages, which hold nothing. None touches a table or a page.
fn walks(names: [&'static str; 3], pages: usize) -> [Row; 3] {
    let mut bad = image(&Shape { pages, spare: MOST_RESERVED * PAGE, ..Shape::default() });
    let mark = bad.header(0);
    bad.window[mark] ^= 1;
    let bad = Rc::new(bad);
    let (begin, end) = (bad.address(0), bad.address(bad.window.len() / PAGE));
    let beside = |k: u64| if k % 2 == 0 { begin - (k + 1) * PAGE_SIZE } else { end + k * PAGE_SIZE };
    let inside = |k: u64| end - (k + 1) * PAGE_SIZE;
    let platforms = [bad.platform, with_ranges(&bad.platform, beside), with_ranges(&bad.platform, inside)];
    let row = |which: usize| check(names[which], AIM_OF_OTHERS, &bad, platforms[which], HEADER, NO_LIST);
    [row(0), row(1), row(2)]
}

/// The platform with as many reserved ranges of a page as there may be.
fn with_ranges(platform: &Platform, base: impl Fn(u64) -> u64) -> Platform {
    let ranges: Vec<MemoryRange> = (0..MOST_RESERVED as u64).map(|k| MemoryRange { base: base(k), size: PAGE_SIZE }).collect();
    Platform { reserved: Reserved::new(&ranges).expect("as many as there may be"), ..*platform }
}
