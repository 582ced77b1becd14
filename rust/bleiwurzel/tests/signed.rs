//! Signed policy lists that tboot's tools made: they permit where their signature verifies and their counter is not below the record's.
//!
//! `tests/signed_policies.sh` at the repository's top made the policy files and records once. Each signed list names the image of the default shape.

mod common;

use bleiwurzel::{check, policy, rsa_verify, sha256, MOST_PAGES};
use common::*;
use std::ops::Range;
use std::path::{Path, PathBuf};

/// The files of one signed list, which has counter 5.
const ONES: [(&str, usize); 2] = [("one-2048", 256), ("one-3072", 384)];
/// The file of an unsigned list that does not name the image, a signed one with counter 5 and one with counter 7.
const THREE: &str = "three";
/// Where the counters stand in a record, 16 bits each.
const COUNTERS: usize = 6;
/// The greatest counter, which no list here comes up to.
const MOST: u16 = 0xffff;

fn folder() -> PathBuf {
    Path::new(env!("CARGO_MANIFEST_DIR")).join("tests/data/signed")
}

fn read(name: &str) -> Vec<u8> {
    std::fs::read(folder().join(name)).expect("a stored file")
}

/// The digest that the lists were made for.
fn stored_digest() -> Vec<u8> {
    let digits = String::from_utf8(read("image.sha256")).expect("digits");
    let byte = |at: usize| u8::from_str_radix(&digits[at..at + 2], 16).expect("two digits");
    (0..64).step_by(2).map(byte).collect()
}

/// The lists of a policy file.
fn lists(file: &[u8]) -> Vec<Vec<u8>> {
    let (mut rest, mut lists) = (&file[policy::FIRST_LIST..], Vec::new());
    while !rest.is_empty() {
        let first = SignedList(rest.to_vec());
        let end = if rest[2..4] == [0x14, 0] { first.signature_range().end } else { first.counter_at() };
        lists.push(rest[..end].to_vec());
        rest = &rest[end..];
    }
    assert_eq!(lists.len(), usize::from(file[policy::FIRST_LIST - 1]), "the list count");
    lists
}

/// Signed list i of a stored file.
fn signed_list(name: &str, i: usize) -> SignedList {
    let list = lists(&read(&format!("{name}.data"))).swap_remove(i);
    assert_eq!(list[2..4], [0x14, 0], "{name}: list {i} is signed");
    SignedList(list)
}

/// All signed lists.
fn signed_lists() -> [SignedList; 4] {
    [signed_list(ONES[0].0, 0), signed_list(ONES[1].0, 0), signed_list(THREE, 1), signed_list(THREE, 2)]
}

/// The unsigned list, which does not name the image.
fn other_list() -> Vec<u8> {
    lists(&read("three.data")).swap_remove(0)
}

/// The image under a stored policy, with its file and its record as they are.
fn stored(name: &str) -> Image {
    let mut image = with_file(&image(&Shape::default()), &read(&format!("{name}.data")), &[0; 32]);
    image.record = read(&format!("{name}.pol"));
    image
}

/// The image under a policy of these lists, with these counters in the record and a right PolicyHash.
fn of_lists(lists: &[Vec<u8>], counters: &[u16]) -> Image {
    with_counters(&with_lists(&image(&Shape::default()), lists), counters)
}

/// The same with these counters in the record, from list 0 on.
fn with_counters(image: &Image, counters: &[u16]) -> Image {
    let mut image = image.clone();
    for (i, counter) in counters.iter().enumerate() {
        put(&mut image.record, COUNTERS + 2 * i, u64::from(*counter), 2);
    }
    image
}

/// The list that permits, or the number of the refusal.
fn given(name: &str, image: &Image) -> Result<u32, u32> {
    let answer = asked(name, image);
    if answer.number == 0 {
        Ok(answer.list)
    } else {
        Err(answer.number)
    }
}

fn flipped(bytes: &[u8], at: usize, bit: u32) -> Vec<u8> {
    let mut bytes = bytes.to_vec();
    bytes[at] ^= 1 << bit;
    bytes
}

#[test]
fn files_are_for_the_image() {
    let digest = stored_digest();
    assert_eq!(sha256(&image(&Shape::default()).bytes()).to_vec(), digest, "the image is not the one that was signed");
    let names = |list: &[u8]| list.windows(32).any(|bytes| bytes == digest);
    assert!(signed_lists().iter().all(|list| names(&list.0)));
    assert!(!names(&other_list()));
    let sizes_and_counters = signed_lists().map(|list| (list.key_size(), list.counter()));
    assert_eq!(sizes_and_counters, [(256, 5), (384, 5), (256, 5), (384, 7)]);
}

/// The counters that tboot's tool wrote stand where the check reads them.
#[test]
fn records_have_the_counters() {
    let counters = |name: &str| stored(name).record[COUNTERS..COUNTERS + 16].to_vec();
    for (name, _) in ONES {
        assert_eq!(counters(name), [vec![5], vec![0; 15]].concat(), "{name}");
    }
    assert_eq!(counters(THREE), [vec![0, 0, 5, 0, 7], vec![0; 11]].concat());
}

#[test]
fn files_as_stored_permit() {
    for (name, list) in [(ONES[0].0, 0), (ONES[1].0, 0), (THREE, 1)] {
        let image = stored(name);
        assert_eq!(given(name, &image), Ok(list), "{name}");
        let permission = check(&image.parts(), &image.platform, &mut vec![0; MOST_PAGES]).expect("a permission");
        assert_eq!((permission.pages, permission.list), (2, Some(list as u8)), "{name}");
        assert_eq!(permission.digest.to_vec(), stored_digest(), "{name}");
    }
}

/// What else is asked of a list is asked of a signed one, too, and an unsigned one with its elements has the same answers.
#[test]
fn permits_like_an_unsigned_list() {
    for list in signed_lists() {
        for list in [list.unsigned(), list.0] {
            let good = of_lists(&[list], &[]);
            assert_eq!(given("the list", &good), Ok(0));
            let mut older = good.clone();
            older.sinit[ACM_VERSION] = 4;
            assert_eq!(given("AcmVersion 4, SINITMinVersion 5", &older), Err(29));
            let mut changed = good.clone();
            let last = good.offset(good.listed[1]) + PAGE - 1;
            changed.window[last] ^= 1;
            assert_eq!(given("an image that is not named", &changed), Err(29));
        }
    }
}

#[test]
fn counter_of_the_only_list() {
    for (name, _) in ONES {
        let image = stored(name);
        for counter in [0, 1, 4, 5] {
            assert_eq!(given(name, &with_counters(&image, &[counter])), Ok(0), "{name}: {counter}");
        }
        // The first of the last three is 5 with its bytes exchanged.
        for counter in [6, 7, 0x0500, 0x0105, MOST] {
            assert_eq!(given(name, &with_counters(&image, &[counter])), Err(29), "{name}: {counter}");
        }
        assert_eq!(given(name, &with_counters(&image, &[5, MOST, MOST, MOST, MOST, MOST, MOST, MOST])), Ok(0), "{name}");
    }
}

#[test]
fn counters_of_three_lists() {
    let image = stored(THREE);
    for (counters, expected) in [
        ([0, 5, 7], Ok(1)),
        ([MOST, 5, 7], Ok(1)),
        ([MOST, 5, MOST], Ok(1)),
        ([0, 6, 7], Ok(2)),
        ([MOST, MOST, 7], Ok(2)),
        ([0, 7, 5], Ok(2)),
        ([0, 6, 8], Err(29)),
        ([0, 6, MOST], Err(29)),
    ] {
        assert_eq!(given(THREE, &with_counters(&image, &counters)), expected, "{counters:?}");
    }
}

/// A signed list at each of the eight places, among lists that do not name the image.
#[test]
fn counter_at_every_index() {
    for list in signed_lists() {
        for i in 0..8 {
            let mut lists = vec![other_list(); 8];
            lists[i] = list.0.clone();
            let answer = |own: u16, others: u16| {
                let mut counters = [others; 8];
                counters[i] = own;
                given("eight lists", &of_lists(&lists, &counters))
            };
            assert_eq!(answer(list.counter(), MOST), Ok(i as u32), "list {i}");
            assert_eq!(answer(list.counter() + 1, 0), Err(29), "list {i}");
        }
    }
}

/// A list whose signature does not verify hinders no other.
#[test]
fn other_lists_of_the_file() {
    let with = |second: bool, third: bool| {
        let mut lists = lists(&read("three.data"));
        for (list, bad) in lists[1..].iter_mut().zip([second, third]) {
            let last = list.len() - 1;
            list[last] ^= u8::from(bad);
        }
        lists
    };
    assert_eq!(given("none", &of_lists(&with(false, false), &[])), Ok(1));
    assert_eq!(given("the second", &of_lists(&with(true, false), &[])), Ok(2));
    assert_eq!(given("the third", &of_lists(&with(false, true), &[])), Ok(1));
    assert_eq!(given("both", &of_lists(&with(true, true), &[])), Err(29));
    let unsigned = signed_list(THREE, 1).unsigned();
    assert_eq!(given("both, and an unsigned one behind", &of_lists(&[with(true, true), vec![unsigned]].concat(), &[])), Ok(3));
}

/// The places of changed bits: all in the first and the last byte of a part, and two in each other byte, so that it takes no longer than a second
/// or two.
fn places(part: &Range<usize>) -> impl Iterator<Item = (usize, u32)> {
    let (first, last) = (part.start, part.end - 1);
    let bits = move |at: usize| (0..8).filter(move |bit| at == first || at == last || *bit as usize % 4 == at % 4);
    part.clone().flat_map(move |at| bits(at).map(move |bit| (at, bit)))
}

/// Changed bits of the signed bytes up to the key, of the key and of the signature, one by one. The key is signed, too; it is changed as the key, as
/// what is signed, and as both.
#[test]
fn no_changed_bit_verifies() {
    for (name, size) in ONES {
        let list = signed_list(name, 0);
        let (key, signature, message) = (list.key(), list.signature(), list.message());
        assert_eq!((key.len(), signature.len(), message.len()), (size, size, 8 + 50 + 4 + size), "{name}");
        assert!(rsa_verify(key, signature, message), "{name}: unchanged");
        let mut count = 0;
        for part in [0..list.key_range().start, list.key_range(), list.signature_range()] {
            for (at, bit) in places(&part) {
                let other = flipped(&list.0, at, bit);
                let (other_key, other_message) = (&other[list.key_range()], &other[..message.len()]);
                let mut verifies = rsa_verify(other_key, &other[list.signature_range()], other_message);
                if part == list.key_range() {
                    verifies |= rsa_verify(other_key, signature, message) || rsa_verify(key, signature, other_message);
                }
                assert!(!verifies, "{name}: bit {bit} of byte {at}");
                count += 1;
            }
        }
        assert_eq!(count, 2 * list.0.len() + 3 * 2 * 6, "{name}: changed bits");
    }
}

/// The answer for a policy of one list, with a right PolicyHash or with that of another list.
fn answer_of(name: &str, list: Vec<u8>, measured: Option<&SignedList>) -> Result<u32, u32> {
    let hashed = measured.map_or_else(|| list.clone(), |other| other.0.clone());
    given(name, &with_file(&image(&Shape::default()), &policy_file(&[list]).0, &policy_hash(&[hashed])))
}

/// The bits of the first and the last byte of key and signature, through the whole check. The key is what of the list is measured.
#[test]
fn changed_key_and_signature() {
    for (name, _) in ONES {
        let list = signed_list(name, 0);
        assert_eq!(answer_of(name, list.0.clone(), Some(&list)), Ok(0), "{name}: unchanged");
        let ends = |range: Range<usize>| [range.start, range.end - 1];
        for bit in 0..8 {
            for at in ends(list.signature_range()) {
                assert_eq!(answer_of(name, flipped(&list.0, at, bit), Some(&list)), Err(29), "{name}: bit {bit} of byte {at}");
            }
            for at in ends(list.key_range()) {
                assert_eq!(answer_of(name, flipped(&list.0, at, bit), Some(&list)), Err(28), "{name}: bit {bit} of byte {at}");
                assert_eq!(answer_of(name, flipped(&list.0, at, bit), None), Err(29), "{name}: bit {bit} of byte {at}");
            }
        }
    }
}

/// Fields that are signed and not measured, changed to values under which an unsigned list would permit, and a raised counter.
#[test]
fn changed_fields() {
    for (name, _) in ONES {
        let list = signed_list(name, 0);
        let counter = list.counter_at();
        // The list's version is 0x0201, its element begins at 8, and SINITMinVersion is 5.
        let fields = [("version", 0, 0), ("control", 16, 0), ("SINITMinVersion", 20, 0), ("reserved byte", 21, 0)];
        for (field, at, bit) in fields {
            let changed = SignedList(flipped(&list.0, at, bit));
            assert_eq!(answer_of(field, changed.unsigned(), None), Ok(0), "{name}: {field}, unsigned");
            assert_eq!(answer_of(field, changed.0, Some(&list)), Err(29), "{name}: {field}");
        }
        for (at, bit) in [(counter, 0), (counter, 1), (counter, 3), (counter + 1, 7)] {
            assert_eq!(answer_of("counter", flipped(&list.0, at, bit), Some(&list)), Err(29), "{name}: the counter");
        }
        assert_eq!(answer_of("key size", flipped(&list.0, counter + 2, 0), Some(&list)), Err(27), "{name}: the key size");
        assert_eq!(answer_of("unchanged", list.0.clone(), Some(&list)), Ok(0), "{name}: unchanged");
    }
}
