//! All stored captures: the answer of the library, of the library over the parts, and of the finding.

mod common;

use bleiwurzel::capture::{Layout, Unfit};
use bleiwurzel::{answer, answer_capture, capture, finding, Reserved, MOST_RESERVED};
use common::{captures, hold_place, image, outputs, printed, put, top, Image, Shape, MLE_SIZE, PAGE, UNTOUCHED};

fn untouched_after(pages: &[u64], count: u32) -> bool {
    pages[count as usize..].iter().all(|page| *page == UNTOUCHED)
}

#[test]
fn every_capture_has_its_output() {
    let expected = outputs(&top().join("tests/captures_expected.tsv"));
    let captures = captures();
    assert!(captures.len() >= 500, "only {} captures", captures.len());
    assert_eq!(captures.len(), expected.len(), "as many captures as expected outputs");
    for (name, bytes) in captures {
        let mut pages = vec![UNTOUCHED; capture::PLACES];
        let given = answer_capture(&bytes, &mut pages);
        assert_eq!(printed(&given, &pages), expected[&name], "{name}");
        assert!(untouched_after(&pages, given.pages), "{name}: a place past the pages was written");
        if given.number != 0 {
            assert_eq!((given.pages, given.list, given.digest), (0, 255, [0; 32]), "{name}");
        }
        hold_place(&name, &given, capture::split(&bytes).ok());
    }
}

#[test]
fn the_parts_answer_as_the_capture_does() {
    for (name, bytes) in captures() {
        let mut pages = vec![UNTOUCHED; capture::PLACES];
        let given = answer_capture(&bytes, &mut pages);
        match capture::split(&bytes) {
            Err(_) => assert_eq!(given.number, 30, "{name}"),
            Ok((parts, platform)) => {
                assert!(bytes[3] != 1 || platform.reserved == Reserved::NONE, "{name}: version 1 has no ranges");
                let mut again = vec![UNTOUCHED; capture::PLACES];
                assert_eq!(answer(&parts, &platform, &mut again), given, "{name}");
                assert_eq!(again, pages, "{name}");
                let made = capture::make(&parts, &platform).expect("a capture");
                assert_eq!(capture::split(&made).map(|(_, platform)| platform), Ok(platform), "{name}");
                // Version 2 without ranges is made as version 1.
                assert_eq!(made == bytes, Layout::read(&bytes) == Ok(Layout::of(&platform.reserved)), "{name}");
            }
        }
    }
}

#[test]
fn the_finding_comes_to_the_same_number() {
    for (name, bytes) in captures() {
        let given = answer_capture(&bytes, &mut vec![0; capture::PLACES]);
        let found = finding::first_in_capture(&bytes, capture::PLACES);
        assert_eq!(found.as_ref().map_or(0, |finding| finding.number), given.number, "{name}");
        let of_answer = given.result().err().and_then(|refusal| finding::find_in_capture(refusal, &bytes, capture::PLACES));
        assert_eq!(of_answer, found, "{name}");
    }
}

#[test]
fn the_digest_is_that_of_the_listed_pages() {
    let mut permitted = 0;
    for (name, bytes) in captures() {
        let mut pages = vec![0; capture::PLACES];
        let given = answer_capture(&bytes, &mut pages);
        if given.number != 0 {
            continue;
        }
        permitted += 1;
        let (parts, platform) = capture::split(&bytes).unwrap_or_else(|fault| panic!("{name}: {fault:?}"));
        let mut message = Vec::new();
        for page in &pages[..given.pages as usize] {
            let at = (page - platform.window_base) as usize;
            message.extend_from_slice(&parts.window[at..at + 4096]);
        }
        assert_eq!(given.digest, plain_sha256::digest_in_parts(&message, 0), "{name}");
    }
    assert!(permitted > 0, "no capture is permitted");
}

/// The numbers that the library and the finding come to.
fn numbers(bytes: &[u8]) -> [u32; 2] {
    let found = finding::first_in_capture(bytes, capture::PLACES).map_or(0, |finding| finding.number);
    [answer_capture(bytes, &mut vec![0; capture::PLACES]).number, found]
}

/// Of each version; the window's length stands behind the reserved ranges.
#[test]
fn captures_of_65_536_bytes_and_one_more() {
    for (ranges, at) in [(0, 59), (1, 77), (16, 317)] {
        let with_spare = |spare| reserving(image(&Shape { spare, ..Shape::default() }), ranges);
        let small = capture::make(&with_spare(0).parts(), &with_spare(0).platform).expect("a small capture").len();
        let whole = with_spare(65_536 - small);
        let mut bytes = capture::make(&whole.parts(), &whole.platform).expect("the largest capture");
        assert_eq!(bytes.len(), 65_536);
        assert_eq!(numbers(&bytes), [0, 0], "{ranges} ranges");
        let more = with_spare(65_536 - small + 1);
        assert_eq!(capture::make(&more.parts(), &more.platform), Err(Unfit::Long(65_537)));
        bytes.push(0);
        put(&mut bytes, at, more.window.len() as u64, 4);
        assert_eq!(numbers(&bytes), [30, 30], "{ranges} ranges: all lengths are right, but it is too long");
    }
}

/// An image whose platform has so many reserved ranges, all different and none near its window.
fn reserving(mut image: Image, ranges: u64) -> Image {
    let ranges: Vec<(u64, u64)> = (0..ranges).map(|k| (0x3000_0000 + 0x1234 * k, 0x567 * k)).collect();
    image.reserve(&ranges);
    image
}

/// The capture of an image of two pages from 0x103000 on, with these reserved ranges.
fn captured(ranges: &[(u64, u64)]) -> Vec<u8> {
    let mut image = image(&Shape::default());
    image.reserve(ranges);
    capture::make(&image.parts(), &image.platform).expect("a capture")
}

/// What is made is split into the same platform and parts; without ranges it has version 1.
#[test]
fn captures_with_every_number_of_reserved_ranges() {
    let plain = captured(&[]);
    assert_eq!(plain[3..5], [1, 0]);
    for count in 0..=MOST_RESERVED {
        let image = reserving(image(&Shape::default()), count as u64);
        let made = capture::make(&image.parts(), &image.platform).expect("a capture");
        let (parts, platform) = capture::split(&made).expect("a capture");
        assert_eq!(platform, image.platform);
        let of = |image: &Image| [&image.window, &image.heap, &image.sinit, &image.record].map(Vec::clone);
        assert_eq!([parts.window, parts.heap, parts.sinit, parts.record].map(<[u8]>::to_vec), of(&image));
        assert_eq!(numbers(&made), [0, 0], "{count} ranges");
        if count == 0 {
            assert_eq!(made, plain);
            continue;
        }
        // The head is written once more, by itself.
        let ranges = platform.reserved.as_slice().iter().flat_map(|range| [range.base, range.size]).flat_map(u64::to_le_bytes);
        let mut expected = plain.clone();
        expected[3] = 2;
        expected.splice(59..59, [count as u8, 0].into_iter().chain(ranges));
        assert_eq!(made, expected, "{count} ranges");
    }
}

/// The ranges of a capture count as those of its parts, also where it is the last of sixteen.
#[test]
fn answers_with_reserved_ranges() {
    const TOP: u64 = 1 << 52;
    for (base, size, number) in [
        (0x104fff, 1, 17),
        (0x104fff, 0, 0),
        (0x105000, 1, 0),
        (0xff000, 0x1000, 0),
        (0xff000, 0x1001, 17),
        (TOP, 0, 0),
        (TOP, 1, 1),
        (TOP + 1, 0, 1),
        (u64::MAX, u64::MAX, 1),
    ] {
        let mut ranges = [(0, 0); MOST_RESERVED];
        ranges[MOST_RESERVED - 1] = (base, size);
        for ranges in [&ranges[..], &[(base, size)]] {
            assert_eq!(numbers(&captured(ranges)), [number; 2], "{base:#x}+{size:#x}, {} ranges", ranges.len());
        }
    }
}

/// One range more than there are, which stands behind the count, and one fewer.
fn one_more(capture: &mut Vec<u8>) {
    capture[59] += 1;
    capture.splice(61..61, [0; 16]);
}

fn one_fewer(capture: &mut Vec<u8>) {
    capture[59] -= 1;
    capture.drain(61..77);
}

/// What is changed in a capture of version 2 with 16 ranges, and the number that is answered then.
#[test]
fn heads_of_version_2() {
    let good = captured(&[(0, 0); MOST_RESERVED]);
    /// A head of so many ranges, with lengths of 0 and nothing behind, or so many bytes of it.
    fn head(c: &mut Vec<u8>, ranges: u8, bytes: usize) {
        c.truncate(59);
        c.extend([ranges, 0]);
        c.resize(bytes, 0);
    }
    let cases: [(&str, fn(&mut Vec<u8>), u32); 20] = [
        ("nothing", |_| (), 0),
        ("one range fewer", one_fewer, 0),
        ("one range more", one_more, 30),
        ("no range", |c| (0..16).for_each(|_| one_fewer(c)), 0),
        ("version 1", |c| c[3] = 1, 30),
        ("version 3", |c| c[3] = 3, 30),
        ("version 0x0102", |c| c[4] = 1, 30),
        ("a count of 15, and 16 ranges", |c| c[59] = 15, 30),
        ("a count of 17, and 16 ranges", |c| c[59] = 17, 30),
        ("a count of 0x0110", |c| c[60] = 1, 30),
        ("a byte behind the parts", |c| c.push(0), 30),
        ("the last byte gone", |c| c.truncate(c.len() - 1), 30),
        ("a window 1 byte longer", |c| lengthen(c, 317, 1), 30),
        ("no range and 77 bytes", |c| head(c, 0, 77), 2),
        ("no range and 76 bytes", |c| head(c, 0, 76), 30),
        ("no range and 75 bytes", |c| head(c, 0, 75), 30),
        ("one range and 93 bytes", |c| head(c, 1, 93), 2),
        ("one range and 92 bytes", |c| head(c, 1, 92), 30),
        ("16 ranges and 333 bytes", |c| head(c, 16, 333), 2),
        ("16 ranges and 332 bytes", |c| head(c, 16, 332), 30),
    ];
    for (name, change, number) in cases {
        let mut bytes = good.clone();
        change(&mut bytes);
        assert_eq!(numbers(&bytes), [number; 2], "{name}");
    }
}

/// Which field is wrong, what it should be and what it is.
#[test]
fn faults_of_heads() {
    let with = |change: fn(&mut Vec<u8>)| {
        let mut bytes = captured(&[(0, 0); 2]);
        change(&mut bytes);
        let fault = capture::split(&bytes).expect_err("no capture");
        [fault.place, fault.expected, fault.found]
    };
    let lengths = "lengths that make 21551 bytes with the 109 of the head, as many as the file has";
    let made = "window 20480, heap 124, module 768, record 71, which makes 21552";
    let cases: [(fn(&mut Vec<u8>), [&str; 3]); 7] = [
        (|c| c[2] = b'D', ["the mark, offset 0", "4c 50 43, which is LPC", "4c 50 44"]),
        (|c| c[3] = 3, ["the version, offset 3", "1 or 2", "3"]),
        (|c| put(c, 59, 17, 2), ["the count of reserved ranges, offset 59", "at most 16", "17"]),
        (|c| put(c, 59, 0xffff, 2), ["the count of reserved ranges, offset 59", "at most 16", "65535"]),
        (|c| c.truncate(74), ["the whole file", "at least 75 bytes, as many as stand before the parts", "74 bytes"]),
        (
            |c| c.truncate(108),
            [
                "the whole file",
                "at least 109 bytes, as many as stand before the parts in version 2 with 2 reserved ranges",
                "108 bytes",
            ],
        ),
        (|c| lengthen(c, 105, 1), ["the four lengths, offsets 93 to 108", lengths, made]),
    ];
    for (change, expected) in cases {
        assert_eq!(with(change), expected);
    }
}

/// A capture is answered by the places that the caller lends: a larger MLE Size is 13, and 21 where there are enough, since the capture has two pages.
#[test]
fn mle_sizes_and_places() {
    let mut image = image(&Shape::default());
    let cases = [
        (4096, 4096, 21),
        (4097, 4096, 13),
        (4097, 4097, 21),
        (16_384, 4096, 13),
        (16_384, 16_383, 13),
        (16_384, 16_384, 21),
        (16_385, 4096, 12),
        (16_385, 16_385, 12),
    ];
    for (pages, places, number) in cases {
        put(&mut image.heap, MLE_SIZE, (pages * PAGE) as u64, 8);
        let bytes = capture::make(&image.parts(), &image.platform).expect("a capture");
        let mut list = vec![UNTOUCHED; places];
        let given = answer_capture(&bytes, &mut list).number;
        let found = finding::first_in_capture(&bytes, places).map_or(0, |finding| finding.number);
        assert_eq!((given, found), (number, number), "{pages} pages, {places} places");
        assert!(untouched_after(&list, 0), "{pages} pages, {places} places");
    }
}

/// A capture has no STM image, and is not made of parts that have one.
#[test]
fn a_capture_has_no_stm_image() {
    let mut image = image(&Shape::default());
    let bytes = capture::make(&image.parts(), &image.platform).expect("a capture");
    assert!(capture::split(&bytes).expect("a capture").0.stm.is_empty());
    image.stm = vec![0];
    assert_eq!(capture::make(&image.parts(), &image.platform), Err(Unfit::Stm));
}

/// What is changed in a capture of version 1 that is permitted, and the number that is answered then.
#[test]
fn heads_and_lengths() {
    let image = image(&Shape::default());
    let good = capture::make(&image.parts(), &image.platform).expect("a capture");
    let cases: [(&str, fn(&mut Vec<u8>), u32); 18] = [
        ("nothing", |_| (), 0),
        ("the mark's first byte", |c| c[0] = b'l', 30),
        ("the mark's last byte", |c| c[2] = b'D', 30),
        ("version 0", |c| put(c, 3, 0, 2), 30),
        ("version 2, without a count of reserved ranges", |c| put(c, 3, 2, 2), 30),
        ("version 3", |c| put(c, 3, 3, 2), 30),
        ("version 0x0101", |c| put(c, 3, 0x0101, 2), 30),
        ("version 0x0100", |c| put(c, 3, 0x0100, 2), 30),
        ("a byte behind the parts", |c| c.push(0), 30),
        ("the last byte gone", |c| c.truncate(c.len() - 1), 30),
        ("a window of 2^32 - 1 bytes", |c| put(c, 59, 0xffff_ffff, 4), 30),
        ("a window 1 byte shorter", |c| lengthen(c, 59, -1), 30),
        ("a window 1 byte longer", |c| lengthen(c, 59, 1), 30),
        (
            "a window longer and a heap shorter by 1 byte",
            |c| {
                lengthen(c, 59, 1);
                lengthen(c, 63, -1);
            },
            2,
        ),
        (
            "lengths whose sum wraps at 2^32 to the right one",
            |c| {
                lengthen(c, 59, 1 << 31);
                lengthen(c, 63, 1 << 31);
            },
            30,
        ),
        (
            "75 bytes with lengths of 0",
            |c| {
                c.truncate(75);
                c[59..75].fill(0);
            },
            2,
        ),
        ("74 bytes", |c| c.truncate(74), 30),
        ("no bytes", |c| c.clear(), 30),
    ];
    for (name, change, number) in cases {
        let mut bytes = good.clone();
        change(&mut bytes);
        assert_eq!(numbers(&bytes), [number; 2], "{name}");
    }
}

/// Adds to a length in a capture's head.
fn lengthen(capture: &mut [u8], at: usize, more: i64) {
    let length = u32::from_le_bytes([capture[at], capture[at + 1], capture[at + 2], capture[at + 3]]);
    put(capture, at, (i64::from(length) + more) as u64, 4);
}
