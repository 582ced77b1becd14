//! The library's RSA verification on the table of cases.

use bleiwurzel::rsa_verify;
use samples::rsa_cases;
use std::collections::BTreeMap;

/// The key sizes, in bytes.
const SIZES: [&str; 2] = ["256", "384"];

/// The kinds of cases, and how many of each verify and do not verify, for each key size.
const KINDS: [(&str, usize, usize); 15] = [
    ("below the encoding", 0, 1),
    ("byte order", 1, 4),
    ("carries", 10, 0),
    ("digest", 0, 20),
    ("drawn", 0, 6),
    ("exponent", 1, 3),
    ("leading zero", 1, 5),
    ("length", 1, 13),
    ("modulus", 0, 16),
    ("near the encoding", 1, 5),
    ("other key", 1, 1),
    ("other message", 0, 3),
    ("padding", 0, 19),
    ("signature", 1, 13),
    ("valid", 8, 0),
];

#[test]
fn every_case_as_in_the_table() {
    let cases = rsa_cases();
    let wrong: Vec<&str> = cases
        .iter()
        .filter(|case| rsa_verify(&case.key, &case.signature, &case.message) != case.verifies)
        .map(|case| case.name.as_str())
        .collect();
    assert!(wrong.is_empty(), "{} of {} cases: {wrong:#?}", wrong.len(), cases.len());
}

#[test]
fn every_kind_for_both_sizes() {
    let mut counts: BTreeMap<String, (usize, usize)> = BTreeMap::new();
    for case in rsa_cases() {
        let (size_and_kind, _) = case.name.split_once(": ").expect("a key size and a kind, a colon");
        let (yes, no) = counts.entry(size_and_kind.to_string()).or_default();
        *(if case.verifies { yes } else { no }) += 1;
    }
    let of = |size: &'static str| KINDS.iter().map(move |(kind, yes, no)| (format!("{size} {kind}"), (*yes, *no)));
    assert_eq!(counts, SIZES.into_iter().flat_map(of).collect());
    let all = counts.values().fold((0, 0), |all, count| (all.0 + count.0, all.1 + count.1));
    assert_eq!(all, (50, 218), "cases that verify, and that do not");
}

#[test]
fn every_name_once() {
    let mut names: Vec<String> = rsa_cases().into_iter().map(|case| case.name).collect();
    let all = names.len();
    names.sort();
    names.dedup();
    assert_eq!(names.len(), all);
}
