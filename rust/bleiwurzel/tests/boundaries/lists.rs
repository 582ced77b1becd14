//! Rules 26 to 29: the place of the policy file, its grammar, PolicyHash and the list that permits. STM elements stand in `stm`.
//!
//! A record of another length than 70 bytes is 23 before its PolicyHash is looked at.

use crate::common::*;
use crate::stored_image::*;
use bleiwurzel::Answer;
use plain_sha256::digest_in_parts;

fn digest() -> [u8; 32] {
    digest_in_parts(&image(&Shape::default()).bytes(), 0)
}

/// A list of one launch element of SINITMinVersion 5, which is the module's AcmVersion, that names the image.
fn naming() -> Vec<u8> {
    list(&[launch(5, &[digest()])])
}

/// The answer for an image with a file of these lists and a hash.
fn asked_of(name: &str, lists: &[Vec<u8>], hash: &[u8; 32]) -> Answer {
    asked(name, &with_file(&image(&Shape::default()), &policy_file(lists).0, hash))
}

/// Lists, and the list that permits, or 27 or 29.
type Lists = (&'static str, fn() -> Vec<Vec<u8>>, Result<u32, u32>);

fn hold_lists(cases: &[Lists]) {
    let of = |(name, lists, expected): &Lists| {
        let lists = lists();
        let answer = asked_of(name, &lists, &policy_hash(&lists));
        let given = if answer.number == 0 { Ok(answer.list) } else { Err(answer.number) };
        (given != *expected).then(|| format!("{name}: {given:?}, not {expected:?}"))
    };
    let wrong: Vec<String> = cases.iter().filter_map(of).collect();
    assert!(wrong.is_empty(), "{} of {} cases: {wrong:#?}", wrong.len(), cases.len());
}

#[test]
fn place() {
    fn at(i: &mut Image, base: u64, size: u64) {
        put(&mut i.heap, POLICY_BASE, base, 8);
        put(&mut i.heap, POLICY_SIZE, size, 8);
    }
    /// A file of the window's last bytes, moved on and made longer.
    fn last(i: &mut Image, size: u64, on: u64, more: u64) {
        at(i, BASE + i.window.len() as u64 - size + on, size + more);
    }
    hold(
        &with_lists(&image(&Shape::default()), &[naming()]),
        &[
            ("a file that ends with the window", |_| (), 0),
            ("and a byte of the window behind it", |i| i.window.push(0), 0),
            ("without the window's last byte", |i| i.window.truncate(i.window.len() - 1), 26),
            ("36 bytes at the window's front", |i| at(i, BASE, 36), 27),
            ("35 bytes at the window's front", |i| at(i, BASE, 35), 26),
            ("no bytes at the window's front", |i| at(i, BASE, 0), 26),
            ("36 bytes from 1 byte before the window on", |i| at(i, BASE - 1, 36), 26),
            ("36 bytes at the window's end", |i| last(i, 36, 0, 0), 27),
            ("37 bytes to 1 byte behind the window", |i| last(i, 36, 0, 1), 26),
            ("36 bytes to 1 byte behind the window", |i| last(i, 36, 1, 0), 26),
            ("the whole window", |i| at(i, BASE, i.window.len() as u64), 27),
            ("the whole window and 1 byte", |i| at(i, BASE, i.window.len() as u64 + 1), 26),
            ("36 bytes at 0", |i| at(i, 0, 36), 26),
            ("36 bytes whose end wraps to 0", |i| at(i, 0u64.wrapping_sub(36), 36), 26),
            ("2^64 - 1 bytes, whose end wraps to the window's front", |i| at(i, BASE + 1, u64::MAX), 26),
        ],
    );
}

/// Files of 65,536 bytes and one more, in a window that holds them.
#[test]
fn greatest_size() {
    fn filled(i: &mut Image, bytes: usize) {
        let filler = bytes - 36 - naming().len() - 12;
        let body = list(&[element(3, &vec![7; filler]), launch(5, &[digest()])]);
        *i = with_lists(&image(&Shape::default()), &[body]);
        assert_eq!(i.heap[POLICY_SIZE..POLICY_SIZE + 8], (bytes as u64).to_le_bytes());
    }
    hold(&image(&Shape::default()), &[("65,536 bytes", |i| filled(i, 65_536), 0), ("65,537 bytes", |i| filled(i, 65_537), 26)]);
}

/// The offset in the window of a byte of the policy file, which stands behind the image.
fn in_file(i: &Image, at: usize) -> usize {
    i.offset(BASE) + image(&Shape::default()).window.len() + at
}

fn file_byte(i: &mut Image, at: usize, number: u8) {
    let at = in_file(i, at);
    i.window[at] = number;
}

#[test]
fn grammar() {
    hold(
        &with_lists(&image(&Shape::default()), &[naming()]),
        &[
            ("another first character", |i| file_byte(i, 0, b'i'), 27),
            ("another last character", |i| file_byte(i, 27, b'a'), 27),
            ("the first zero", |i| file_byte(i, 28, 1), 27),
            ("the last zero", |i| file_byte(i, 34, 1), 27),
            ("a list counted that is not there", |i| file_byte(i, 35, 2), 27),
            ("list version 0x0202", |i| file_byte(i, 36, 2), 27),
            ("list version 0x0101", |i| file_byte(i, 37, 1), 27),
            ("signature algorithm 0x0011", |i| file_byte(i, 38, 0x11), 27),
            ("elements size 1 too small", |i| file_byte(i, 40, 49), 27),
            ("elements size 1 too large", |i| file_byte(i, 40, 51), 27),
            ("element size 1 too small", |i| file_byte(i, 44, 49), 27),
            ("element size 1 too large", |i| file_byte(i, 44, 51), 27),
            ("one digest too many counted", |i| file_byte(i, 60, 2), 27),
            ("no digest counted", |i| file_byte(i, 60, 0), 27),
            ("HashAlg 0x000a", |i| file_byte(i, 58, 0x0a), 27),
        ],
    );
    hold_lists(&[
        ("no list", Vec::new, Err(27)),
        ("one list", || vec![naming()], Ok(0)),
        ("eight lists, the last permits", || [vec![list(&[]); 7], vec![naming()]].concat(), Ok(7)),
        ("nine lists, the last would permit", || [vec![list(&[]); 8], vec![naming()]].concat(), Err(27)),
        ("eight empty lists", || vec![list(&[]); 8], Err(29)),
        ("nine empty lists", || vec![list(&[]); 9], Err(27)),
        ("a list of version 0x0200", || vec![[&[0x00], &naming()[1..]].concat()], Ok(0)),
        ("an element of 12 bytes", || vec![list(&[element(3, &[]), launch(5, &[digest()])])], Ok(0)),
        ("an element of 11 bytes", || vec![list(&[short(11), launch(5, &[digest()])])], Err(27)),
        ("11 bytes behind the last element", || vec![list(&[launch(5, &[digest()]), short(11)])], Err(27)),
        ("a byte behind the last list", || vec![[naming(), vec![0]].concat()], Err(27)),
        ("a key of 256 bytes", || vec![signed(&[], 256), naming()], Ok(1)),
        ("a key of 384 bytes", || vec![signed(&[], 384), naming()], Ok(1)),
        ("a key of 255 bytes", || vec![signed(&[], 255), naming()], Err(27)),
        ("a key of 257 bytes", || vec![signed(&[], 257), naming()], Err(27)),
        ("a key of 512 bytes", || vec![signed(&[], 512), naming()], Err(27)),
        ("a key of no bytes", || vec![signed(&[], 0), naming()], Err(27)),
    ]);
}

/// An element of type 3 that says how many bytes it has, fewer than 12.
fn short(bytes: usize) -> Vec<u8> {
    let mut element = element(3, &[]);
    put(&mut element, 0, bytes as u64, 4);
    element.truncate(bytes);
    element
}

#[test]
fn algorithms_and_their_lengths() {
    let known = [(0x0004, 20), (0x000b, 32), (0x000c, 48), (0x000d, 64), (0x0012, 32)];
    for hash_alg in (0x0000..0x0020).chain([0x0b00, 0x000b ^ 0x8000]) {
        let length = known.iter().find(|(known, _)| *known == hash_alg).map(|(_, length)| *length);
        for bytes in [0, 19, 20, 21, 31, 32, 33, 47, 48, 49, 63, 64, 65] {
            let other = element(0x10, &launch_body(0, hash_alg, 1, &vec![9; bytes]));
            let lists = vec![list(&[other, launch(5, &[digest()])])];
            let name = format!("a digest of {bytes} bytes by {hash_alg:#06x}");
            let expected = if length == Some(bytes) { 0 } else { 27 };
            assert_eq!(asked_of(&name, &lists, &policy_hash(&lists)).number, expected, "{name}");
        }
    }
}

#[test]
fn hash() {
    fn bit(i: &mut Image, at: usize, bit: u8) {
        i.record[38 + at] ^= bit;
    }
    fn set(i: &mut Image, hash: [u8; 32]) {
        i.record[38..70].copy_from_slice(&hash);
    }
    hold(
        &with_lists(&image(&Shape::default()), &[naming()]),
        &[
            ("PolicyHash", |_| (), 0),
            ("its first bit", |i| bit(i, 0, 1), 28),
            ("its last bit", |i| bit(i, 31, 128), 28),
            ("the list's measure in its place", |i| set(i, digest_in_parts(&naming(), 0)), 28),
            ("a control of another value in the list", |i| file_byte(i, 52, 1), 28),
            ("another last byte of the list", |i| file_byte(i, 93, !digest()[31]), 28),
        ],
    );
    let second = || [&[0x00], &list(&[])[1..]].concat();
    let two = [naming(), second()];
    let exchanged = policy_hash(&[second(), naming()]);
    let as_one = digest_in_parts(&digest_in_parts(&two.concat(), 0), 0);
    assert_eq!(asked_of("two lists", &two, &policy_hash(&two)).number, 0);
    assert_eq!(asked_of("two lists, their measures exchanged", &two, &exchanged).number, 28);
    assert_eq!(asked_of("two lists measured as one", &two, &as_one).number, 28);
}

/// A signed list is measured by its key alone. It stands before one that permits.
#[test]
fn hash_of_a_signed_list() {
    for size in [256, 384] {
        let first = signed(&[launch(5, &[[3; 32]])], size);
        let key = first.len() - 2 * usize::from(size);
        let hash = policy_hash(&[first.clone(), naming()]);
        let changed = |name: &str, at: usize| {
            let mut first = first.clone();
            first[at] ^= 1;
            asked_of(name, &[first, naming()], &hash).number
        };
        let signature = key + usize::from(size);
        assert_eq!(asked_of("a signed list", &[first.clone(), naming()], &hash).list, 1);
        assert_eq!(changed("the last byte of its elements", key - 5), 0);
        assert_eq!(changed("its counter", key - 4), 0);
        assert_eq!(changed("its key size", key - 2), 27);
        assert_eq!(changed("the key's first byte", key), 28);
        assert_eq!(changed("the key's last byte", signature - 1), 28);
        assert_eq!(changed("the signature's first byte", signature), 0);
        assert_eq!(changed("the signature's last byte", first.len() - 1), 0);
        let whole: Vec<u8> = [&first, &naming()].iter().flat_map(|list| digest_in_parts(list, 0)).collect();
        assert_eq!(asked_of("the whole list measured", &[first.clone(), naming()], &digest_in_parts(&whole, 0)).number, 28);
    }
}

/// A digest that differs from the image's in one byte.
fn other(at: usize) -> [u8; 32] {
    let mut other = digest();
    other[at] ^= 1;
    other
}

#[test]
fn elements() {
    fn one(element: Vec<u8>) -> Vec<Vec<u8>> {
        vec![list(&[element])]
    }
    fn two(first: Vec<u8>, second: Vec<u8>) -> Vec<Vec<u8>> {
        vec![list(&[first, second])]
    }
    /// An element of a type, with the body of a launch element that names the image, and then a launch element.
    fn before(kind: u32) -> Vec<Vec<u8>> {
        two(element(kind, &launch_body(5, 0x000b, 1, &digest())), launch(5, &[digest()]))
    }
    fn behind(kind: u32) -> Vec<Vec<u8>> {
        two(launch(5, &[digest()]), element(kind, &[]))
    }
    hold_lists(&[
        ("SINITMinVersion 5, AcmVersion 5", || one(launch(5, &[digest()])), Ok(0)),
        ("SINITMinVersion 6, AcmVersion 5", || one(launch(6, &[digest()])), Err(29)),
        ("SINITMinVersion 0, AcmVersion 5", || one(launch(0, &[digest()])), Ok(0)),
        ("another last byte", || one(launch(5, &[other(31)])), Err(29)),
        ("another first byte", || one(launch(5, &[other(0)])), Err(29)),
        ("the first of two digests", || one(launch(5, &[digest(), other(0)])), Ok(0)),
        ("the second of two digests", || one(launch(5, &[other(0), digest()])), Ok(0)),
        ("none of two digests", || one(launch(5, &[other(0), other(31)])), Err(29)),
        ("no digest", || one(launch(5, &[])), Err(29)),
        ("types 0x10 and 0x10", || before(0x10), Ok(0)),
        ("types 3 and 0x10", || before(3), Ok(0)),
        ("types 0x13 and 0x10", || before(0x13), Err(29)),
        ("types 0x15 and 0x10", || before(0x15), Err(29)),
        ("types 0 and 0x10", || before(0), Err(29)),
        ("types 0x0103 and 0x10", || before(0x0103), Err(29)),
        ("types 0x01000010 and 0x10", || before(0x0100_0010), Err(29)),
        ("types 0x10 and 0x13", || behind(0x13), Err(29)),
        ("types 0x10 and 3", || behind(3), Ok(0)),
        ("type 3 alone", || one(element(3, &launch_body(5, 0x000b, 1, &digest()))), Err(29)),
        ("the digest by HashAlg 0x0012", || one(element(0x10, &launch_body(5, 0x0012, 1, &digest()))), Err(29)),
        (
            "the digest as the front of one by HashAlg 0x000c",
            || one(element(0x10, &launch_body(5, 0x000c, 1, &[&digest()[..], &[0; 16]].concat()))),
            Err(29),
        ),
        ("no element", || vec![list(&[])], Err(29)),
        ("the second of two elements", || two(launch(5, &[other(0)]), launch(5, &[digest()])), Ok(0)),
        ("a low version in one, the digest in the other", || two(launch(5, &[other(0)]), launch(6, &[digest()])), Err(29)),
        ("a high version in one, the digest in the other", || two(launch(6, &[other(0)]), launch(5, &[digest()])), Ok(0)),
    ]);
}

#[test]
fn lists() {
    fn not() -> Vec<u8> {
        list(&[launch(5, &[other(0)])])
    }
    fn unverified() -> Vec<u8> {
        signed(&[launch(5, &[digest()])], 256)
    }
    hold_lists(&[
        ("a signed list that does not verify", || vec![unverified()], Err(29)),
        ("a signed list that does not verify and an unsigned one", || vec![unverified(), naming()], Ok(1)),
        ("list 0 of three", || vec![naming(), not(), not()], Ok(0)),
        ("list 1 of three", || vec![not(), naming(), not()], Ok(1)),
        ("list 2 of three", || vec![not(), not(), naming()], Ok(2)),
        ("lists 1 and 2 of three", || vec![not(), naming(), naming()], Ok(1)),
        ("lists 0 and 2 of three", || vec![naming(), not(), naming()], Ok(0)),
        ("none of three", || vec![not(), not(), not()], Err(29)),
        (
            "an element of another type in the list before",
            || vec![list(&[launch(5, &[digest()]), element(0x13, &[])]), naming()],
            Ok(1),
        ),
    ]);
}

/// The counter that the record asks of a list, which is 16 bits from offset 6 on for list 0.
fn asks(i: &mut Image, list: usize, counter: u64) {
    put(&mut i.record, 6 + 2 * list, counter, 2);
}

#[test]
fn counters() {
    hold(
        &stored_image(SIGNED),
        &[
            ("counter 1, the record asks 1", |_| (), 0),
            ("counter 1, the record asks 0", |i| asks(i, 0, 0), 0),
            ("counter 1, the record asks 2", |i| asks(i, 0, 2), 29),
            ("counter 1, the record asks 0x0100", |i| asks(i, 0, 0x0100), 29),
            ("counter 1, the record asks 0xffff", |i| asks(i, 0, 0xffff), 29),
            ("counter 1, the record asks 0xffff of every other list", |i| (1..8).for_each(|list| asks(i, list, 0xffff)), 0),
            ("counter 1, SINITMinVersion of the record 2", |i| put(&mut i.record, 5, 2, 1), 0),
        ],
    );
    hold(
        &stored_image(SIGNED_BEHIND_TWO),
        &[
            ("counter 7 of list 2, the record asks 7", |i| asks(i, 2, 7), 0),
            ("counter 7 of list 2, the record asks 8", |i| asks(i, 2, 8), 29),
            ("the record asks 8 of list 0 and list 1", |i| (0..2).for_each(|list| asks(i, list, 8)), 0),
            ("the record asks 8 of list 3", |i| asks(i, 3, 8), 0),
        ],
    );
    hold(
        &with_lists(&image(&Shape::default()), &[naming()]),
        &[("the record asks 0xffff of an unsigned list", |i| asks(i, 0, 0xffff), 0)],
    );
}

/// Every part of a list before its signature is signed. The key is measured too, so that another one is 28.
#[test]
fn signatures() {
    hold(
        &stored_image(SIGNED),
        &[
            ("a signature that verifies", |_| (), 0),
            ("its first byte", |i| flip(i, SIGNATURE), 29),
            ("its last byte", |i| flip(i, SIGNED_END - 1), 29),
            ("the list's version, 0x0200", |i| flip(i, SIGNED_LIST), 29),
            ("an element's control", |i| flip(i, SIGNED_CONTROL), 29),
            ("the counter's high byte, 0x0101", |i| flip(i, SIGNED_COUNTER + 1), 29),
            ("the key's first byte", |i| flip(i, SIGNED_KEY), 28),
        ],
    );
    assert_eq!(asked("a signed list", &stored_image(SIGNED)).list, 0);
    assert_eq!(asked("a signed list behind two", &stored_image(SIGNED_BEHIND_TWO)).list, 2);
}
