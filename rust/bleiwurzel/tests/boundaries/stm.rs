//! STM elements (type 0x14) and the STM image: its greatest length, the grammar of a body, and which lists permit.

use crate::common::*;
use plain_sha256::digest_in_parts;

/// 16 MiB.
const MOST: usize = 16_777_216;

/// The digest of the MLE's pages.
fn digest() -> [u8; 32] {
    digest_in_parts(&image(&Shape::default()).bytes(), 0)
}

/// An STM image of an odd length.
fn image_of_stm() -> Vec<u8> {
    (0..5001).map(|i| (i * 11 + i / 256) as u8).collect()
}

fn stm_digest() -> [u8; 32] {
    digest_in_parts(&image_of_stm(), 0)
}

/// A launch element that names the MLE.
fn mle() -> Vec<u8> {
    launch(5, &[digest()])
}

/// An STM element that names the STM image.
fn naming() -> Vec<u8> {
    stm(&[stm_digest()])
}

/// An image under a LIST policy with these lists, and an STM image.
fn with_stm(lists: &[Vec<u8>], stm: Vec<u8>) -> Image {
    Image { stm, ..with_lists(&image(&Shape::default()), lists) }
}

#[test]
fn greatest_length() {
    let any = image(&Shape::default());
    let without = with_lists(&any, &[list(&[mle()])]);
    for (policy, good) in [("ANY", any), ("LIST", without)] {
        for (length, number) in [(0, 0), (1, 0), (MOST, 0), (MOST + 1, 1)] {
            let name = format!("{policy}, an STM image of {length} bytes");
            let asked = asked(&name, &Image { stm: vec![0; length], ..good.clone() });
            assert_eq!(asked.number, number, "{name}");
        }
    }
    let longest = vec![7; MOST];
    let named = stm(&[digest_in_parts(&longest, 0)]);
    assert_eq!(asked("named", &with_stm(&[list(&[mle(), named.clone()])], longest.clone())).number, 0);
    let shorter = longest[1..].to_vec();
    assert_eq!(asked("a byte less", &with_stm(&[list(&[mle(), named.clone()])], shorter)).number, 29);
    let longer = [longest, vec![7]].concat();
    assert_eq!(asked("a byte more", &with_stm(&[list(&[mle(), named])], longer)).number, 1);
}

/// Where rule 1 fails, no other is tried, also where the list would not permit and where a part is missing.
#[test]
fn too_long_before_all_else() {
    hold(
        &with_stm(&[list(&[mle(), naming()])], vec![0; MOST + 1]),
        &[
            ("all else in order", |_| (), 1),
            ("no heap", |i| i.heap.clear(), 1),
            ("no record", |i| i.record.clear(), 1),
            ("no window", |i| i.window.clear(), 1),
        ],
    );
}

/// What a list that names the MLE holds besides, and the answer with the STM image: the list that permits, or 27 or 29.
type Lists = (&'static str, fn() -> Vec<Vec<u8>>, Result<u32, u32>);

fn hold_lists(stm: &[u8], cases: &[Lists]) {
    let of = |(name, lists, expected): &Lists| {
        let answer = asked(name, &with_stm(&lists(), stm.to_vec()));
        let given = if answer.number == 0 { Ok(answer.list) } else { Err(answer.number) };
        (given != *expected).then(|| format!("{name}: {given:?}, not {expected:?}"))
    };
    let wrong: Vec<String> = cases.iter().filter_map(of).collect();
    assert!(wrong.is_empty(), "{} of {} cases: {wrong:#?}", wrong.len(), cases.len());
}

/// A list of an STM element of so many bytes, which are the front of one with two digests of which it counts `count`, and a launch element.
fn cut(size: usize, count: u16) -> Vec<Vec<u8>> {
    let body = stm_body(0x000b, count, &[stm_digest(), stm_digest()].concat());
    vec![list(&[element(0x14, &body[..size - 12]), mle()])]
}

#[test]
fn sizes_and_counts() {
    hold_lists(
        &image_of_stm(),
        &[
            ("12 bytes", || cut(12, 0), Err(27)),
            ("13 bytes", || cut(13, 0), Err(27)),
            ("14 bytes", || cut(14, 0), Err(27)),
            ("15 bytes", || cut(15, 0), Err(27)),
            ("16 bytes, no digest", || cut(16, 0), Err(29)),
            ("17 bytes, no digest", || cut(17, 0), Err(27)),
            ("16 bytes, one digest", || cut(16, 1), Err(27)),
            ("47 bytes, one digest", || cut(47, 1), Err(27)),
            ("48 bytes, one digest", || cut(48, 1), Ok(0)),
            ("49 bytes, one digest", || cut(49, 1), Err(27)),
            ("48 bytes, no digest", || cut(48, 0), Err(27)),
            ("48 bytes, two digests", || cut(48, 2), Err(27)),
            ("79 bytes, two digests", || cut(79, 2), Err(27)),
            ("80 bytes, two digests", || cut(80, 2), Ok(0)),
            ("80 bytes, one digest", || cut(80, 1), Err(27)),
            ("80 bytes, three digests", || cut(80, 3), Err(27)),
            ("48 bytes, 0x0101 digests", || cut(48, 0x0101), Err(27)),
            ("48 bytes, 0x0100 digests", || cut(48, 0x0100), Err(27)),
        ],
    );
}

/// A body of the grammar that names no STM image permits nothing, so 29 shows that it is one.
#[test]
fn algorithms_and_their_lengths() {
    let known = [(0x0004, 20), (0x000b, 32), (0x000c, 48), (0x000d, 64), (0x0012, 32)];
    for hash_alg in (0x0000..0x0020).chain([0x0b00, 0x000b ^ 0x8000]) {
        let length = known.iter().find(|(known, _)| *known == hash_alg).map(|(_, length)| *length);
        let number = |name: &str, count: u16, bytes: usize| {
            let other = element(0x14, &stm_body(hash_alg, count, &vec![9; bytes]));
            asked(name, &with_stm(&[list(&[other, mle()])], image_of_stm())).number
        };
        let name = format!("no digest by {hash_alg:#06x}");
        assert_eq!(number(&name, 0, 0), if length.is_some() { 29 } else { 27 }, "{name}");
        for bytes in [0, 19, 20, 21, 31, 32, 33, 47, 48, 49, 63, 64, 65] {
            let name = format!("a digest of {bytes} bytes by {hash_alg:#06x}");
            assert_eq!(number(&name, 1, bytes), if length == Some(bytes) { 29 } else { 27 }, "{name}");
        }
    }
}

/// A malformed body is not of the grammar in a signed list either, nor in a list behind one that permits.
#[test]
fn malformed_anywhere() {
    fn malformed() -> Vec<u8> {
        element(0x14, &stm_body(0x0005, 0, &[]))
    }
    hold_lists(
        &image_of_stm(),
        &[
            ("in a signed list", || vec![list(&[mle()]), signed(&[malformed()], 256)], Err(27)),
            ("in a later list", || vec![list(&[mle()]), list(&[malformed()])], Err(27)),
            ("the body of a launch element", || vec![list(&[mle(), element(0x14, &mle()[12..])])], Err(27)),
            (
                "its body in an element of type 0x0114",
                || vec![list(&[mle()]), list(&[element(0x0114, &malformed()[12..])])],
                Ok(0),
            ),
        ],
    );
}

/// A digest that differs from the STM image's in one byte.
fn other(at: usize) -> [u8; 32] {
    let mut other = stm_digest();
    other[at] ^= 1;
    other
}

/// An STM element by another algorithm.
fn by(hash_alg: u16, digest: &[u8]) -> Vec<u8> {
    element(0x14, &stm_body(hash_alg, 1, digest))
}

#[test]
fn which_lists_permit() {
    fn one(elements: &[Vec<u8>]) -> Vec<Vec<u8>> {
        vec![list(elements)]
    }
    hold_lists(
        &image_of_stm(),
        &[
            ("no STM element", || one(&[mle()]), Ok(0)),
            ("one that names the image", || one(&[mle(), naming()]), Ok(0)),
            ("before the launch element", || one(&[naming(), mle()]), Ok(0)),
            ("another last byte", || one(&[mle(), stm(&[other(31)])]), Err(29)),
            ("another first byte", || one(&[mle(), stm(&[other(0)])]), Err(29)),
            ("the second of two digests", || one(&[mle(), stm(&[other(0), stm_digest()])]), Ok(0)),
            ("the first of two digests", || one(&[mle(), stm(&[stm_digest(), other(0)])]), Ok(0)),
            ("the second of two elements", || one(&[stm(&[other(0)]), mle(), naming()]), Ok(0)),
            ("the first of two elements", || one(&[naming(), mle(), stm(&[other(0)])]), Ok(0)),
            ("the second of two, the first by another algorithm", || one(&[by(0x0004, &[0; 20]), mle(), naming()]), Ok(0)),
            ("no digest", || one(&[mle(), stm(&[])]), Err(29)),
            ("the digest by HashAlg 0x0012", || one(&[mle(), by(0x0012, &stm_digest())]), Err(29)),
            (
                "the digest as the front of one by HashAlg 0x000c",
                || one(&[mle(), by(0x000c, &[&stm_digest()[..], &[0; 16]].concat())]),
                Err(29),
            ),
            (
                "the digest as the front of one by HashAlg 0x000d",
                || one(&[mle(), by(0x000d, &[&stm_digest()[..], &[0; 32]].concat())]),
                Err(29),
            ),
            ("the STM's digest in a launch element only", || one(&[launch(5, &[digest(), stm_digest()]), stm(&[])]), Err(29)),
            (
                "the MLE's digest in an STM element only",
                || one(&[launch(5, &[other(0)]), stm(&[digest(), stm_digest()])]),
                Err(29),
            ),
            ("the two digests exchanged", || one(&[launch(5, &[stm_digest()]), stm(&[digest()])]), Err(29)),
            ("an STM element alone", || one(&[naming()]), Err(29)),
            ("SINITMinVersion 6, AcmVersion 5", || one(&[launch(6, &[digest()]), naming()]), Err(29)),
            ("with a custom element", || one(&[mle(), element(3, b"x"), naming()]), Ok(0)),
            ("with an element of type 0x13", || one(&[mle(), naming(), element(0x13, b"")]), Err(29)),
            ("with an element of type 0x11", || one(&[element(0x11, b"x"), mle(), naming()]), Err(29)),
            ("an element of type 0x01000014", || one(&[mle(), element(0x0100_0014, &naming()[12..])]), Err(29)),
            ("a signed list that does not verify", || vec![signed(&[mle(), naming()], 256)], Err(29)),
            (
                "a signed list that does not verify and an unsigned one",
                || vec![signed(&[mle(), naming()], 256), list(&[mle(), naming()])],
                Ok(1),
            ),
            ("the STM named in another list", || vec![list(&[mle(), stm(&[other(0)])]), list(&[naming()])], Err(29)),
            ("the MLE named in another list", || vec![list(&[naming()]), list(&[mle(), stm(&[])])], Err(29)),
            ("another list without STM elements", || vec![list(&[mle(), stm(&[other(0)])]), list(&[mle()])], Ok(1)),
            (
                "the second of two lists with STM elements",
                || vec![list(&[mle(), stm(&[other(0)])]), list(&[mle(), naming()])],
                Ok(1),
            ),
            ("the lowest of two that permit", || vec![list(&[mle(), naming()]), list(&[mle()])], Ok(0)),
        ],
    );
}

/// Without an STM image no list with an STM element permits, not even one that names the digest of nothing.
#[test]
fn no_image() {
    fn of_nothing() -> Vec<u8> {
        stm(&[digest_in_parts(&[], 0)])
    }
    hold_lists(
        &[],
        &[
            ("no STM element", || vec![list(&[mle()])], Ok(0)),
            ("an STM element", || vec![list(&[mle(), naming()])], Err(29)),
            ("an STM element without digests", || vec![list(&[mle(), stm(&[])])], Err(29)),
            ("the digest of nothing", || vec![list(&[mle(), of_nothing()])], Err(29)),
            ("and then a list without STM elements", || vec![list(&[mle(), of_nothing()]), list(&[mle()])], Ok(1)),
        ],
    );
    let of_a_zero = stm(&[digest_in_parts(&[0], 0)]);
    let lists = [list(&[mle(), of_a_zero])];
    assert_eq!(asked("an STM image of one byte", &with_stm(&lists, vec![0])).number, 0);
    assert_eq!(asked("the digest of a zero, without an image", &with_stm(&lists, Vec::new())).number, 29);
}

/// All bytes of the STM image count, and a byte more or less.
#[test]
fn every_byte_counts() {
    hold(
        &with_stm(&[list(&[mle(), naming()])], image_of_stm()),
        &[
            ("as it is", |_| (), 0),
            ("its first byte", |i| i.stm[0] ^= 1, 29),
            ("its last byte", |i| i.stm[5000] ^= 128, 29),
            ("its byte 2052, where StaticImageSize stands", |i| i.stm[2052] ^= 1, 29),
            ("a byte less", |i| i.stm.truncate(5000), 29),
            ("a byte more", |i| i.stm.push(0), 29),
        ],
    );
}

/// Under ANY the STM image matters for its length alone.
#[test]
fn under_any() {
    let mut image = with_stm(&[list(&[mle(), naming()])], Vec::new());
    assert_eq!(asked("LIST", &image).number, 29);
    image.record[4] = 1;
    assert_eq!(asked("ANY", &image).number, 0);
    image.stm = vec![1; 100];
    assert_eq!(asked("ANY, another STM image", &image).number, 0);
}

/// A count of over a byte: the digest that is named is the last of 257, and the count says one fewer, as many, or one more.
#[test]
fn a_count_of_two_bytes() {
    let mut digests = vec![[1; 32]; 256];
    digests.push(stm_digest());
    for (count, number) in [(1, 27), (256, 27), (257, 0), (258, 27)] {
        let element = element(0x14, &stm_body(0x000b, count, &digests.concat()));
        let asked = asked(&format!("a count of {count}"), &with_stm(&[list(&[mle(), element])], image_of_stm()));
        assert_eq!(asked.number, number, "a count of {count}");
    }
    digests.pop();
    assert_eq!(asked("the last one gone", &with_stm(&[list(&[mle(), stm(&digests)])], image_of_stm())).number, 29);
}
