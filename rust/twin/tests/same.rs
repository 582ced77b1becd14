//! The check in ordinary Rust and the proved library give the same: the answer with its place, and the whole page list, of which every place is
//! filled before with a pattern, so that it is seen which were written.

use inputs::{Answer, MemoryRange, Parts, Platform, Reserved, MOST_PAGES, MOST_RESERVED, MOST_TABLES};
use samples::*;
use std::collections::BTreeSet;

/// What the capture program lends.
const PLACES: usize = 4096;

/// Another value at each place, and none that a page has.
fn pattern(places: usize) -> Vec<u64> {
    (0..places as u64).map(|place| UNTOUCHED ^ place).collect()
}

/// The answer of both, with a page list of so many places.
#[track_caller]
fn both(name: &str, parts: &Parts, platform: &Platform, places: usize) -> Answer {
    let (mut ours, mut proved) = (pattern(places), pattern(places));
    let answer = twin::answer(parts, platform, &mut ours);
    assert_eq!(answer, library::check(parts, platform, &mut proved), "{name}, {places} places");
    assert!(ours == proved, "{name}, {places} places: the page list");
    answer
}

/// The same for a capture.
#[track_caller]
fn both_of_capture(name: &str, capture: &[u8], places: usize) -> Answer {
    let (mut ours, mut proved) = (pattern(places), pattern(places));
    let answer = twin::answer_capture(capture, &mut ours);
    assert_eq!(answer, library::check_capture(capture, &mut proved), "{name}, {places} places");
    assert!(ours == proved, "{name}, {places} places: the page list");
    answer
}

#[track_caller]
fn number(name: &str, image: &Image) -> u32 {
    both(name, &image.parts(), &image.platform, image.places).number
}

#[test]
fn every_stored_capture() {
    let captures = captures();
    let mut met = BTreeSet::new();
    for (name, capture) in &captures {
        met.insert(both_of_capture(name, capture, PLACES).number);
        for places in [0, 1, 2] {
            both_of_capture(name, capture, places);
        }
    }
    assert!(captures.len() >= 500, "only {} captures", captures.len());
    // No capture has place for so many tables that there are too many.
    assert_eq!(met, (0..=30).filter(|number| *number != 18).collect(), "every other number is met");
}

/// A capture that is cut off anywhere, or has a byte more, is none; and one with another byte in its head is another.
#[test]
fn captures_that_are_none() {
    let captures = captures();
    let versions =
        [1, 2].map(|version| captures.iter().find(|(_, capture)| capture.get(3) == Some(&version)).expect("a capture"));
    for (name, capture) in versions {
        for length in (0..400).chain(capture.len() - 8..capture.len()) {
            assert_eq!(both_of_capture(name, &capture[..length], PLACES).number, 30, "{name} cut to {length}");
        }
        assert_eq!(both_of_capture(name, &[&capture[..], &[0]].concat(), PLACES).number, 30, "{name} and a byte");
        for (at, value) in (0..400).flat_map(|at| [0x00, 0x01, 0x02, 0x10, 0x11, 0xff].map(|value| (at, value))) {
            let mut other = capture.clone();
            other[at] = value;
            both_of_capture(&format!("{name}, {value:#x} at {at}"), &other, PLACES);
        }
    }
    assert_eq!(both_of_capture("65,536 bytes", &[0x4c; 65_536], PLACES).number, 30);
    assert_eq!(both_of_capture("65,537 bytes", &[0x4c; 65_537], PLACES).number, 30);
}

#[test]
fn every_lent_case() {
    let cases = lent_cases();
    assert_eq!(cases.len(), 8);
    for (name, case) in cases {
        let (parts, platform, places) = split_lent(&case);
        both(&name, &parts, &platform, places);
        both(&format!("{name} without its STM image"), &Parts { stm: &[], ..parts }, &platform, places);
    }
}

/// The reading of a string by both: how many lists it has, or its number and place.
#[track_caller]
fn both_read(name: &str, file: &[u8]) -> Result<usize, (u32, u32)> {
    let proved = match library::policy(file) {
        (0, lists, _) => Ok(lists as usize),
        (number, _, place) => Err((number, place as u32)),
    };
    let ours = twin::policy::read(file).map_err(|stop| match stop.place {
        twin::Place::Policy(twin::policy::Fault::Grammar(wrong)) => (stop.number, wrong.at as u32),
        _ => (stop.number, 0),
    });
    assert_eq!(ours, proved, "{name}");
    ours
}

/// The policies that tboot's tools signed. Of each there is the policy file with the ending `data`, and the record with `pol`.
const SIGNED: [&str; 3] = ["one-2048", "one-3072", "three"];

fn signed_file(name: &str, ending: &str) -> Vec<u8> {
    let path = top().join("rust/bleiwurzel/tests/data/signed").join(name).with_extension(ending);
    std::fs::read(path).expect("a stored policy")
}

/// All stored policy files.
fn all_policy_files() -> Vec<(String, Vec<u8>)> {
    let signed = SIGNED.map(|name| (name.to_string(), signed_file(name, "data")));
    policy_files().into_iter().chain(signed).collect()
}

#[test]
fn every_stored_policy_file() {
    let files = all_policy_files();
    assert!(files.len() > 160, "only {} files", files.len());
    let mut met = BTreeSet::new();
    for (name, file) in files {
        met.insert(both_read(&name, &file).map(|_| 0));
        for cut in 0..file.len().min(2000) {
            met.insert(both_read(&format!("{name} cut to {cut}"), &file[..cut]).map(|_| 0));
        }
        met.insert(both_read(&format!("{name} and a byte"), &[&file[..], &[0]].concat()).map(|_| 0));
    }
    assert!(met.contains(&Ok(0)) && met.contains(&Err((26, 0))) && met.len() > 500, "{} places", met.len());
}

#[test]
fn policy_files_of_all_lengths() {
    let head = policy_file(&[]).0;
    for (length, number) in [(0, 26), (35, 26), (36, 27), (65_536, 27), (65_537, 26)] {
        let mut file = head.clone();
        file.resize(length, 0);
        assert_eq!(both_read("", &file).map_err(|(number, _)| number), Err(number), "{length} bytes");
    }
}

/// Every byte of a file with all kinds of elements and a signature, with values that are beside the lines of the grammar.
#[test]
fn policy_files_with_one_byte_changed() {
    let elements = [launch(3, &[[7; 32]; 2]), stm(&[[8; 32]]), element(3, b"site"), element(0x13, b"")];
    let by_others = element(0x10, &launch_body(0, 0x000d, 1, &[9; 64]));
    let (file, _) = policy_file(&[list(&elements), signed(&[by_others, stm(&[])], 256), list(&[])]);
    assert_eq!(both_read("the file", &file), Ok(3));
    let mut places = BTreeSet::new();
    for at in 0..file.len() {
        for change in [1u8, 2, 3, 4, 8, 0x10, 0x80, 0xff] {
            let mut other = file.clone();
            other[at] = other[at].wrapping_add(change);
            places.extend(both_read(&format!("{change} more at {at}"), &other).err());
        }
    }
    assert!(places.len() > 20, "{places:?}");
}

#[test]
fn every_rsa_case() {
    let cases = rsa_cases();
    assert_eq!(cases.len(), 268);
    for case in cases {
        let ours = twin::rsa_verify(&case.key, &case.signature, &case.message);
        assert_eq!(ours, case.verifies, "{}", case.name);
        assert_eq!(library::rsa_verify(&case.key, &case.signature, &case.message), ours, "{}", case.name);
    }
}

/// Images under ANY and under LIST, with page lists of all lengths.
#[test]
fn images() {
    let full = MOST_TABLES - MOST_PAGES / 512 - 2;
    for (pages, first, empty_tables) in
        [(1, 0, 0), (2, 7, 0), (2, 0, MOST_TABLES - 3), (40, 512 * 512 - 20, 0), (4096, 0, 0), (4096, 100, 0)]
    {
        hold_image(&Shape { pages, first, empty_tables, ..Shape::default() });
    }
    hold_image(&Shape { pages: MOST_PAGES, empty_tables: full, ..Shape::default() });
    let too_many = [(MOST_PAGES + 1, 0), (MOST_PAGES, full + 1)];
    let refused =
        too_many.map(|(pages, empty_tables)| number("too many", &image(&Shape { pages, empty_tables, ..Shape::default() })));
    assert_eq!(refused, [12, 18]);
}

/// An image with as many places as it has pages, with more and with fewer; under ANY, and under a list that names it.
fn hold_image(shape: &Shape) {
    let any = image(shape);
    let pages = shape.pages;
    for places in [pages - 1, pages, pages + 5] {
        let name = format!("{pages} pages from {}", shape.first);
        let permitted = places >= pages;
        for image in [&any, &under_list(&any)] {
            let given = both(&name, &image.parts(), &image.platform, places);
            assert_eq!(given.number, if permitted { 0 } else { 13 }, "{name}, {places} places");
        }
    }
}

/// Heap, module and reserved ranges on each page of a spread image and beside it, and each page named by each table.
#[test]
fn spread_images() {
    let good = spread(BASE);
    let mut met = BTreeSet::new();
    for page in 0..ALL {
        for offset in [0, 1, PAGE as u64 - 1] {
            let address = good.address(page) + offset;
            let moved: [fn(&mut Image, u64); 3] = [
                |image, address| image.platform.heap_base = address,
                |image, address| image.platform.sinit_base = address,
                |image, address| image.reserve(&[(0, 0), (address, 1)]),
            ];
            for change in moved {
                let mut image = good.clone();
                change(&mut image, address);
                met.insert(number(&format!("{address:#x}"), &image));
            }
        }
        for (table, index) in [(POINTERS, 1), (DIRECTORY, 1), (TABLE, 1), (TABLE, 2), (TABLE, 3), (TABLE, 511)] {
            let mut image = good.clone();
            image.entry(table, index, page);
            met.insert(number(&format!("page {page} at {index} of {table}"), &image));
        }
    }
    assert_eq!(met, BTreeSet::from([0, 6, 16, 17, 19, 21]), "the numbers that are met");
}

/// As many reserved ranges as there may be, and entries with each bit set.
#[test]
fn ranges_and_bits() {
    let mut image = spread(BASE);
    let ranges: Vec<MemoryRange> =
        (0..MOST_RESERVED as u64).map(|k| MemoryRange { base: image.address(12) + k, size: k }).collect();
    image.platform.reserved = Reserved::new(&ranges).expect("as many as there may be");
    assert_eq!(number("ranges", &image), 0);
    let mut met = BTreeSet::new();
    for (table, index, page) in [(POINTERS, 0, DIRECTORY), (DIRECTORY, 0, TABLE), (TABLE, 0, ONE), (TABLE, 1, TWO)] {
        for bit in 0..64 {
            let mut changed = image.clone();
            changed.entry_bits(table, index, (image.address(page) | 1) ^ 1 << bit);
            met.insert(number(&format!("bit {bit} of the entry for {page}"), &changed));
        }
    }
    assert!([0, 14, 15, 16, 21].iter().all(|number| met.contains(number)), "{met:?}");
}

/// Lists of which the last permits, with and without signatures and STM elements.
#[test]
fn policies() {
    let any = Image { stm: (0..300).map(|i| (i * 3) as u8).collect(), ..image(&Shape::default()) };
    let digest = plain_sha256::digest_in_parts(&any.bytes(), 0);
    let named = launch(5, &[[1; 32], digest]);
    let of_stm = stm(&[plain_sha256::digest_in_parts(&any.stm, 0)]);
    let others = [
        list(&[launch(6, &[digest])]),
        list(&[named.clone(), element(0x13, b"")]),
        list(&[named.clone(), stm(&[digest])]),
        list(&[element(0x10, &launch_body(0, 0x0012, 1, &digest))]),
        signed(&[named.clone()], 256),
        signed(&[named.clone()], 384),
        list(&[]),
    ];
    for permitting in [list(&[named.clone()]), list(&[of_stm.clone(), element(3, b"x"), named.clone()])] {
        let image = with_lists(&any, &[&others[..], &[permitting]].concat());
        let given = both("the last list permits", &image.parts(), &image.platform, 2);
        assert_eq!((given.number, given.list), (0, 7));
        let other = Image { stm: Vec::new(), ..image };
        both("without an STM image", &other.parts(), &other.platform, 2);
    }
    assert_eq!(number("no list permits", &with_lists(&any, &others)), 29);
    let mut wrong_hash = with_lists(&any, &others);
    wrong_hash.record[69] ^= 1;
    assert_eq!(number("another PolicyHash", &wrong_hash), 28);
}

/// Lists with signatures that verify, under their records and under counters that are too high.
#[test]
fn signed_policies() {
    for name in SIGNED {
        let mut image = with_file(&image(&Shape::default()), &signed_file(name, "data"), &[0; 32]);
        image.record = signed_file(name, "pol");
        assert_eq!(number(name, &image), 0);
        image.record[6..22].fill(0xff);
        assert_eq!(number(&format!("{name}, high counters"), &image), 29);
    }
}
