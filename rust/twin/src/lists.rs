//! Rules 28 and 29: whether the record's PolicyHash is that of the lists, and which list permits. A signature is verified only for a list that
//! names the image, and the STM image, which may be long, is hashed only after that, and once.

use crate::policy::{Body, List};
use crate::record::Record;
use crate::{need, rsa, sha256, Place, Stop};
use plain_sha256::Sha256;

/// A list's measure: the digest of the key where it is signed, else of all of it.
pub fn measure(list: &List) -> [u8; 32] {
    sha256(list.signed.map_or(list.bytes, |signed| signed.key))
}

/// PolicyHash of the lists.
pub fn policy_hash(lists: &[List]) -> [u8; 32] {
    let mut joined = Sha256::new();
    lists.iter().for_each(|list| joined.update(&measure(list)));
    joined.finish()
}

/// Rule 28.
pub fn hash(lists: &[List], record: &Record) -> Result<(), Stop> {
    need(policy_hash(lists) == record.policy_hash, Stop { number: 28, place: Place::PolicyHash })
}

/// What a list is judged by besides the STM image.
#[derive(Clone, Copy, Debug, PartialEq, Eq)]
pub struct Criteria<'a> {
    pub record: &'a Record<'a>,
    pub acm_version: u8,
    /// Of the pages.
    pub digest: [u8; 32],
}

/// The STM image, with its digest once that was asked for.
pub struct Stm<'a> {
    image: &'a [u8],
    digest: Option<[u8; 32]>,
}

impl<'a> Stm<'a> {
    pub fn of(image: &'a [u8]) -> Self {
        Stm { image, digest: None }
    }

    /// Whether there is one.
    pub fn given(&self) -> bool {
        !self.image.is_empty()
    }

    pub fn digest(&mut self) -> [u8; 32] {
        let image = self.image;
        *self.digest.get_or_insert_with(|| sha256(image))
    }
}

/// Rule 29: the lowest list that permits.
pub fn lowest_permitting(lists: &[List], criteria: &Criteria, stm: &mut Stm) -> Result<usize, Stop> {
    let lowest = lists.iter().enumerate().position(|(index, list)| permits(index, list, criteria, stm));
    lowest.ok_or(Stop { number: 29, place: Place::NoList })
}

fn permits(index: usize, list: &List, criteria: &Criteria, stm: &mut Stm) -> bool {
    list.judged
        && reaches_counter(index, list, criteria.record)
        && (!list.stm || stm.given())
        && names_image(list, criteria)
        && verifies(list)
        && (!list.stm || names_stm(list, &stm.digest()))
}

/// Whether the list, if it is signed, has a counter that is not below the record's for the list of this number.
pub fn reaches_counter(index: usize, list: &List, record: &Record) -> bool {
    list.signed.map_or(true, |signed| signed.counter >= record.fields.counters[index])
}

/// Whether a launch element names the image, and asks for no newer module.
fn names_image(list: &List, criteria: &Criteria) -> bool {
    list.elements().any(|element| match element.body {
        Body::Launch { sinit_min_version, digests } => {
            new_enough(criteria.acm_version, sinit_min_version) && digests.name(&criteria.digest)
        }
        _ => false,
    })
}

/// Whether a module of this AcmVersion may launch what an element with this SINITMinVersion names.
pub fn new_enough(acm_version: u8, sinit_min_version: u8) -> bool {
    sinit_min_version <= acm_version
}

/// Whether the signature of the list, if it is signed, verifies.
pub fn verifies(list: &List) -> bool {
    list.signed.map_or(true, |signed| rsa::verify(signed.key, signed.signature, list.message()))
}

/// Whether an STM element names the STM image of this digest.
pub fn names_stm(list: &List, digest: &[u8; 32]) -> bool {
    list.elements().any(|element| matches!(element.body, Body::Stm(digests) if digests.name(digest)))
}
