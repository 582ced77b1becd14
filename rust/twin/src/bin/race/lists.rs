//! Policy files of eight lists and exactly 65,536 bytes, of which only the last list permits. Each list has as many launch elements of one digest as there is
//! room for, so that reader and judge have the most to do.
//!
//! The signed files end with a list that tboot's tools signed with a key of 3,072 bits. Its signature verifies. The lists before it have the same key and
//! signature over other elements, so that theirs do not: where they name other images they are not looked at, and where they name the image each is
//! verified in vain.

use plain_sha256::digest_in_parts;
use samples::*;
use twin::policy::{self, Body};

const LISTS: usize = 8;
/// The bytes of a launch element of one digest.
const ELEMENT: usize = 50;

/// A digest that no image has here.
fn other(number: usize) -> [u8; 32] {
    digest_in_parts(&(number as u64).to_le_bytes(), 0)
}

/// So many launch elements for other images, and one for this digest.
fn elements(count: usize, last: [u8; 32]) -> Vec<Vec<u8>> {
    (1..count).map(other).chain([last]).map(|digest| launch(0, &[digest])).collect()
}

/// The lists that `list` makes of elements, with an element of type 3 in the first one that makes the file with all of them and `ending` as long as it can be.
fn filled(list: impl Fn(&[Vec<u8>]) -> Vec<u8>, named: &[[u8; 32]], ending: &[Vec<u8>]) -> Vec<Vec<u8>> {
    let with = |count: usize, filler: usize| {
        let mut lists: Vec<Vec<Vec<u8>>> = named.iter().map(|digest| elements(count, *digest)).collect();
        lists[0].insert(0, element(policy::CUSTOM, &vec![7; filler]));
        [&lists.iter().map(|elements| list(elements)).collect::<Vec<_>>()[..], ending].concat()
    };
    let left = |count| policy::MOST - policy_file(&with(count, 0)).0.len();
    let count = 1 + left(1) / (ELEMENT * named.len());
    let lists = with(count, left(count));
    assert_eq!((policy_file(&lists).0.len(), lists.len()), (policy::MOST, LISTS), "the file");
    lists
}

/// Eight unsigned lists, of which the last names the image.
pub fn unsigned(digest: [u8; 32]) -> Vec<Vec<u8>> {
    let mut named = [other(0); LISTS];
    named[LISTS - 1] = digest;
    filled(list, &named, &[])
}

/// A stored list that names the image of the default shape, and whose signature verifies.
pub fn stored(name: &str, key_size: usize) -> SignedList {
    let path = top().join("rust/bleiwurzel/tests/data/signed").join(name);
    let file = std::fs::read(path).expect("a stored policy file");
    let list = SignedList(file[policy::FIRST_LIST..].to_vec());
    assert_eq!((list.key().len(), list.signature_range().end), (key_size, list.0.len()), "{name}");
    list
}

/// Eight lists with the stored one as the last, of which the seven before it have its key and signature and name this digest.
pub fn signed_like(last: &SignedList, digest: [u8; 32]) -> Vec<Vec<u8>> {
    let make = |elements: &[Vec<u8>]| {
        let mut made = SignedList(signed(elements, last.key_size() as u16));
        let (key, signature) = (made.key_range(), made.signature_range());
        made.0[key].copy_from_slice(last.key());
        made.0[signature].copy_from_slice(last.signature());
        made.0
    };
    filled(make, &[digest; LISTS - 1], std::slice::from_ref(&last.0))
}

/// Eight signed lists, of which the seven before the last name other images.
pub fn signed_for_others(last: &SignedList) -> Vec<Vec<u8>> {
    signed_like(last, other(0))
}

/// How many signatures are verified until a list permits: those of the lists that name the image, up to and with the first whose signature verifies.
pub fn verifications(lists: &[Vec<u8>], digest: &[u8; 32]) -> usize {
    let (file, _) = policy_file(lists);
    let lists = policy::lists(&file).expect("a policy file");
    let names = |list: &policy::List| {
        list.elements().any(|element| matches!(element.body, Body::Launch { digests, .. } if digests.name(digest)))
    };
    let naming: Vec<_> = lists.iter().filter(|list| names(list)).collect();
    let before = naming.iter().position(|list| twin::lists::verifies(list)).expect("a list that permits");
    naming[..=before].iter().filter(|list| list.signed.is_some()).count()
}

#[cfg(test)]
mod tests {
    use super::*;

    #[test]
    fn as_many_signatures_are_verified_as_is_said() {
        let digest = digest_in_parts(&image(&Shape::default()).bytes(), 0);
        let last = stored("one-3072.data", 384);
        assert_eq!(verifications(&unsigned(digest), &digest), 0);
        assert_eq!(verifications(&signed_for_others(&last), &digest), 1);
        assert_eq!(verifications(&signed_like(&last, digest), &digest), LISTS);
    }
}
