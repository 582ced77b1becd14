//! The place of a 27 over all stored policy files, captures and damaged copies: by the reader, by the functions for C and for Rust, and worked out
//! by itself; and the finding, which must have a field to name at each.

#[path = "common/by_c.rs"]
mod by_c;
mod common;

use bleiwurzel::{answer, answer_capture, capture, finding, policy, Refusal};
use by_c::by_c;
use common::{captures, place, policy_bytes, policy_files, reserved_numbers};
use std::collections::BTreeSet;

/// The refusal of a string, worked out by itself.
fn expected(file: &[u8]) -> Option<Refusal> {
    if !(36..=65_536).contains(&file.len()) {
        return Some(Refusal { number: 26, place: 0 });
    }
    place(file).map(|place| Refusal { number: 27, place })
}

/// Holds the reader of a string to that, and the finding to the reader. Gives the place of a 27.
fn hold(name: impl Fn() -> String, file: &[u8]) -> Option<u32> {
    let refusal = policy::read(file).err();
    assert_eq!(refusal, expected(file), "{}", name());
    let refusal = refusal?;
    let found = finding::find_in_policy(refusal, file).unwrap_or_else(|| panic!("{}: no finding", name()));
    let field = (refusal.number == 27).then_some(refusal.place);
    assert_eq!(found.field.map(|field| field.bytes.start), field, "{}: {}", name(), found.place);
    field
}

#[test]
fn stored_files() {
    let places: BTreeSet<u32> = policy_files().iter().filter_map(|(name, file)| hold(|| name.clone(), file)).collect();
    assert!(places.len() >= 50, "only {} different places", places.len());
}

/// Every byte of every stored file changed in several ways, left out, and another put before it; and the file cut off there.
#[test]
fn damaged_files() {
    let (mut refused, mut all) = (0, 0);
    for (name, mut file) in policy_files() {
        let mut count = |what: &str, at: usize, file: &[u8]| {
            refused += usize::from(hold(|| format!("{name}, {what} {at}"), file).is_some());
            all += 1;
        };
        for at in 0..file.len() {
            let kept = file[at];
            for value in [kept ^ 1, kept.wrapping_add(16), kept.wrapping_sub(1), 0xff] {
                file[at] = value;
                count("another byte at", at, &file);
            }
            file[at] = kept;
            count("cut at", at, &file[..at]);
        }
        for at in (0..=file.len()).filter(|at| *at < 200 || at % 16 == 0) {
            count("a byte more at", at, &[&file[..at], &[file.get(at).copied().unwrap_or(0)], &file[at..]].concat());
            count("a byte less at", at, &[&file[..at], file.get(at + 1..).unwrap_or_default()].concat());
        }
    }
    assert!(refused > 500_000 && refused < all, "{refused} of {all} are refused with 27");
}

/// A finding is silent about another place than the one that the reader comes to, and about another number.
#[test]
fn a_finding_of_another_refusal() {
    let (file, _) = common::policy_file(&[common::list(&[])]);
    let cut = &file[..43];
    for (number, place, silent) in [(27, 40, false), (27, 39, true), (27, 0, true), (26, 0, true), (26, 40, true)] {
        assert_eq!(finding::find_in_policy(Refusal { number, place }, cut).is_none(), silent, "{number} at {place}");
    }
}

/// Every stored capture has the same number and place by all functions, and a 27 the place that the reader has for the policy file alone.
#[test]
fn the_same_place_by_all_functions() {
    let mut refused = 0;
    for (name, bytes) in captures() {
        let given = answer_capture(&bytes, &mut vec![0; capture::PLACES]);
        let (parts, platform) = match capture::split(&bytes) {
            Ok(split) => split,
            Err(_) => continue,
        };
        let by_rust = answer(&parts, &platform, &mut vec![0; capture::PLACES]);
        assert_eq!((by_rust.number, by_rust.place), (given.number, given.place), "{name}");
        let (count, reserved) = reserved_numbers(&platform.reserved);
        let by_c = by_c(&parts, &platform, count, &reserved, capture::PLACES);
        assert_eq!((by_c.number, by_c.place), (given.number, [given.place]), "{name}");
        if given.number == 27 {
            let alone = policy::read(policy_bytes(&parts, &platform));
            assert_eq!(alone, Err(Refusal { number: 27, place: given.place }), "{name}");
            refused += 1;
        }
    }
    assert!(refused >= 60, "only {refused} captures are 27");
}
