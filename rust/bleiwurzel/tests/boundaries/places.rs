//! The place of a 27, on both sides of each line of the grammar: files of which the first wrong field is known, by the reader and by the whole
//! check. The record has no right PolicyHash for any of them, so that a file of the grammar is 28.

use crate::common::*;
use bleiwurzel::{policy, Refusal};

/// A file and the place of its first fault; none where it is of the grammar.
type Case = (String, Vec<u8>, Option<u32>);

fn refused_at(place: u32) -> Refusal {
    Refusal { number: 27, place }
}

fn hold_places(cases: impl IntoIterator<Item = Case>) {
    let image = image(&Shape::default());
    let mut wrong = Vec::new();
    for (name, file, place) in cases {
        let given = asked(&name, &with_file(&image, &file, &[0; 32]));
        let expected = place.map_or((28, 0), |place| (27, place));
        let read = policy::read(&file).err();
        if (given.number, given.place) != expected || read != place.map(refused_at) {
            wrong.push(format!("{name}: {given:?} and {read:?}, not {expected:?}"));
        }
    }
    assert!(wrong.is_empty(), "{wrong:#?}");
}

fn of(lists: &[Vec<u8>]) -> Vec<u8> {
    policy_file(lists).0
}

/// A list with one launch element and one digest: the list stands at 36, the element at 44, and the file ends at 94.
fn good() -> Vec<u8> {
    of(&[list(&[launch(5, &[[1; 32]])])])
}

/// A list without elements and with a key of 256 bytes: the counter stands at 44, the key size at 46, and the file ends at 560.
fn good_signed() -> Vec<u8> {
    of(&[signed(&[], 256)])
}

/// A number of `width` bytes of a file changed to each of these, with the place that is then named.
fn changed(file: &[u8], at: usize, width: usize, numbers: &[(u64, Option<u32>)]) -> Vec<Case> {
    let case = |(number, place): &(u64, Option<u32>)| {
        let mut file = file.to_vec();
        put(&mut file, at, *number, width);
        (format!("{number:#x} at {at} of {} bytes", file.len()), file, *place)
    };
    numbers.iter().map(case).collect()
}

/// A file cut to each length from 36 on, and with a byte more than it has.
fn cut(file: &[u8], place: impl Fn(usize) -> Option<u32>) -> Vec<Case> {
    let longer = [file, &[0]].concat();
    (36..=longer.len())
        .map(|length| (format!("{length} of {} bytes", file.len()), longer[..length].to_vec(), place(length)))
        .collect()
}

/// The mark with its 4 zeros is one field of 32 bytes, the 3 zeros are another, and the list count is a third.
#[test]
fn before_the_lists() {
    for at in 0..36 {
        let expected = [0, 32, 35][usize::from(at >= 32) + usize::from(at >= 35)];
        hold_places(changed(&good(), at, 1, &[(u64::from(good()[at] ^ 1), Some(expected))]));
    }
    hold_places(changed(
        &good(),
        35,
        1,
        &[(0, Some(35)), (1, None), (2, Some(94)), (8, Some(94)), (9, Some(35)), (255, Some(35))],
    ));
    let lists = |count: usize| of(&vec![list(&[]); count]);
    hold_places([("eight lists".to_string(), lists(8), None), ("nine lists".to_string(), lists(9), Some(35))]);
}

#[test]
fn heads_of_lists() {
    hold_places(changed(&good(), 36, 2, &[(0x01ff, Some(36)), (0x0200, None), (0x0201, None), (0x0202, Some(36))]));
    hold_places(changed(&good(), 38, 2, &[(0x000f, Some(38)), (0x0010, None), (0x0011, Some(38))]));
    // A list that says it is signed has a counter behind its elements.
    hold_places(changed(&good(), 38, 2, &[(0x0013, Some(38)), (0x0014, Some(94)), (0x0015, Some(38))]));
    // Past the file's end, exactly to it, and short of the element's end.
    hold_places(changed(&good(), 40, 4, &[(0xffff_ffff, Some(40)), (51, Some(40)), (50, None), (49, Some(44))]));
    // Of no elements, and of 11 bytes, too few for one.
    hold_places(changed(&good(), 40, 4, &[(0, Some(44)), (11, Some(44))]));
}

/// Up to where a file is cut, the fields before are whole. Once the elements size is there, it is at fault until the elements are.
#[test]
fn cut_off() {
    hold_places(cut(&good(), |length| match length {
        36 | 37 => Some(36),
        38 | 39 => Some(38),
        40..=93 => Some(40),
        94 => None,
        _ => Some(94),
    }));
    hold_places(cut(&good_signed(), |length| match length {
        36 | 37 => Some(36),
        38 | 39 => Some(38),
        40..=43 => Some(40),
        44 | 45 => Some(44),
        46..=559 => Some(46),
        560 => None,
        _ => Some(560),
    }));
}

/// The key size answers for key and signature together, also where the key would fit alone.
#[test]
fn key_sizes() {
    let wrong = [0, 1, 255, 257, 383, 385, 512, 65_535].map(|size| (size, Some(46)));
    hold_places(changed(&good_signed(), 46, 2, &wrong));
    hold_places(changed(&good_signed(), 46, 2, &[(256, None), (384, Some(46))]));
    hold_places(changed(&of(&[signed(&[], 384)]), 46, 2, &[(256, Some(560)), (384, None)]));
    hold_places(changed(&good_signed(), 44, 2, &[(0, None), (0xffff, None)]));
    hold_places(changed(&good_signed(), 38, 2, &[(0x0010, Some(44))]));
}

#[test]
fn sizes_of_elements() {
    let two = of(&[list(&[launch(5, &[[1; 32]]), element(3, &[7; 20])])]);
    let sizes = [(0, Some(44)), (11, Some(44)), (49, Some(60)), (50, None), (51, Some(94)), (82, Some(94)), (83, Some(44))];
    hold_places(changed(&two, 44, 4, &sizes));
    // The second ends with the elements, at 126. A size of 12 leaves 20 bytes for a third, whose own size is then 0x07070707.
    hold_places(changed(&two, 94, 4, &[(11, Some(94)), (12, Some(106)), (32, None), (33, Some(94)), (0xffff_ffff, Some(94))]));
    // 1 to 11 bytes for a second element, whatever they say, and 12 that say 0 or 12.
    for left in 1..=12 {
        let rest = |size: u32| [&size.to_le_bytes()[..], &[0; 8]].concat()[..left].to_vec();
        for size in [0, left as u32, 12] {
            let place = if left == 12 && size == 12 { None } else { Some(94) };
            let file = of(&[list(&[launch(5, &[[1; 32]]), rest(size)])]);
            hold_places([(format!("{left} bytes for an element of size {size}"), file, place)]);
        }
    }
}

/// An element with a body that is cut to so many bytes, alone in a file; it stands at 44.
fn with_body(kind: u32, body: &[u8], length: usize) -> Vec<u8> {
    of(&[list(&[element(kind, &body[..length])])])
}

/// The first field that does not fit is named, but a wrong HashAlg that fits comes before a count that does not.
#[test]
fn short_bodies() {
    let launch = |hash_alg, count| launch_body(5, hash_alg, count, &[9; 64]);
    let stm = |hash_alg, count| stm_body(hash_alg, count, &[9; 64]);
    let at = |offset: u32| Some(44 + offset);
    let launch_places = [at(12), at(13), at(14), at(14), at(16), at(16), None, at(18)];
    let stm_places = [at(12), at(12), at(14), at(14), None, at(16)];
    for (kind, body, places) in [(0x10, launch(0x000b, 0), &launch_places[..]), (0x14, stm(0x000b, 0), &stm_places)] {
        for (length, place) in places.iter().enumerate() {
            let name = format!("type {kind:#x}, size {}", 12 + length);
            hold_places([(name, with_body(kind, &body, length), *place)]);
        }
    }
    for (kind, body, hash_alg) in [(0x10, launch(0x000a, 0), 14), (0x14, stm(0x000a, 0), 12)] {
        for length in hash_alg - 12..hash_alg - 12 + 6 {
            let name = format!("type {kind:#x}, size {}, HashAlg 0x000a", 12 + length);
            hold_places([(name, with_body(kind, &body, length), at(hash_alg as u32))]);
        }
    }
    hold_places([("type 3, size 12".to_string(), with_body(3, &[], 0), None)]);
}

/// A count that reaches past the element is at fault itself; one that leaves bytes names the first of them.
#[test]
fn counts_of_digests() {
    for (hash_alg, length) in [(0x0004, 20), (0x000b, 32), (0x000c, 48), (0x000d, 64), (0x0012, 32)] {
        for (count, bytes) in [0, 1, 2, 3].into_iter().flat_map(|count| (0..=3 * length + 1).map(move |bytes| (count, bytes))) {
            let digests = vec![9; bytes];
            let named = usize::from(count) * length;
            for (kind, body, first) in
                [(0x10, launch_body(5, hash_alg, count, &digests), 18), (0x14, stm_body(hash_alg, count, &digests), 16)]
            {
                let place = match named.cmp(&bytes) {
                    std::cmp::Ordering::Less => Some(44 + first + named as u32),
                    std::cmp::Ordering::Equal => None,
                    std::cmp::Ordering::Greater => Some(44 + first - 2),
                };
                let read = policy::read(&with_body(kind, &body, body.len())).err();
                assert_eq!(read, place.map(refused_at), "type {kind:#x}, {count} by {hash_alg:#x}, {bytes} bytes");
            }
        }
    }
    let most = |kind, body: Vec<u8>, place| {
        [(format!("type {kind:#x}, 0xffff digests"), with_body(kind, &body, body.len()), Some(place))]
    };
    hold_places(most(0x10, launch_body(5, 0x000b, 0xffff, &[9; 64]), 60));
    hold_places(most(0x14, stm_body(0x000b, 0xffff, &[9; 64]), 58));
}

/// Of two faults the first in file order is named: the elements size before what is wrong inside, an element before the list behind it, and the
/// list before the byte behind the file.
#[test]
fn the_first_of_two() {
    let both = |name: &str, changes: &[(usize, u64, usize)], more: usize, place: u32| {
        let mut file = of(&[list(&[launch(5, &[[1; 32]])]), list(&[])]);
        changes.iter().for_each(|(at, number, width)| put(&mut file, *at, *number, *width));
        file.extend(vec![0; more]);
        hold_places([(name.to_string(), file, Some(place))]);
    };
    both("elements size and HashAlg", &[(40, 59, 4), (58, 5, 2)], 0, 40);
    both("HashAlg and count", &[(58, 5, 2), (60, 9, 2)], 0, 58);
    both("count and the next list's version", &[(60, 2, 2), (94, 0, 2)], 0, 60);
    both("the second list's version and a byte more", &[(94, 0x0300, 2)], 1, 94);
    both("the second list's elements size and a byte more", &[(98, 2, 4)], 1, 98);
    both("a byte more", &[], 1, 102);
    both("the mark and the 3 zeros", &[(31, 1, 1), (32, 1, 1)], 0, 0);
    both("the 3 zeros and the list count", &[(34, 1, 1), (35, 9, 1)], 0, 32);
}
