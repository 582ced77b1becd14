//! Cases with an STM image, which no capture carries: the answer of the library, and of the finding.

mod common;

use bleiwurzel::{answer, finding, Parts, Platform};
use common::{hold_place, lent_cases, lent_folder, outputs, printed, put, split_lent, UNTOUCHED};

/// Holds the answer for these parts to what is printed of it, and looks at the page list and at the finding.
fn hold(name: &str, parts: &Parts<'_>, platform: &Platform, places: usize, expected: &str) {
    let mut pages = vec![UNTOUCHED; places];
    let given = answer(parts, platform, &mut pages);
    assert_eq!(printed(&given, &pages), expected, "{name}");
    assert!(pages[given.pages as usize..].iter().all(|page| *page == UNTOUCHED), "{name}: a place past the pages was written");
    let found = finding::first(parts, platform, places);
    assert_eq!(found.map_or(0, |finding| finding.number), given.number, "{name}: the finding's number");
    hold_place(name, &given, Some((*parts, *platform)));
}

#[test]
fn every_case_has_its_output() {
    let expected = outputs(&lent_folder().join("expected.tsv"));
    let cases = lent_cases();
    assert_eq!((cases.len(), expected.len()), (8, 8), "as many cases as expected outputs");
    for (name, bytes) in cases {
        let (parts, platform, places) = split_lent(&bytes);
        assert!(!parts.stm.is_empty(), "{name} has an STM image");
        hold(&name, &parts, &platform, places, &expected[&name]);
    }
}

/// A signature that verifies does not stand in for the STM image: the signed list that permits with its own refuses without one and with another.
#[test]
fn a_signed_list_needs_its_stm_image() {
    let bytes = std::fs::read(lent_folder().join("29-stm-signed-match.case")).expect("a case");
    let (parts, platform, places) = split_lent(&bytes);
    let mut other = parts.stm.to_vec();
    other[0] ^= 1;
    let shorter = &parts.stm[..parts.stm.len() - 1];
    for (name, stm) in [("no STM image", &[][..]), ("another first byte", &other), ("a byte less", shorter)] {
        hold(name, &Parts { stm, ..parts }, &platform, places, "refused 29\n");
    }
}

/// A range in the last byte of the image, as the first or the last of a case's sixteen; past the count it is not read.
#[test]
fn a_reserved_range_counts() {
    let (name, count, ranges) = ("29-stm-signed-match.case", 61, 63);
    let permitted = &outputs(&lent_folder().join("expected.tsv"))[name];
    let good = std::fs::read(lent_folder().join(name)).expect("a case");
    for (given, index, expected) in [(1, 0, "refused 17\n"), (16, 15, "refused 17\n"), (15, 15, permitted), (0, 0, permitted)] {
        let mut bytes = good.clone();
        put(&mut bytes, count, given, 2);
        put(&mut bytes, ranges + 16 * index, 0x105fff, 8);
        put(&mut bytes, ranges + 16 * index + 8, 1, 8);
        let (parts, platform, places) = split_lent(&bytes);
        hold(&format!("range {index} of {given}"), &parts, &platform, places, expected);
    }
}
