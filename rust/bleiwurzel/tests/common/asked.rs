//! The check, and all that holds of an answer beside its number.

use super::{place, policy_bytes, Image, UNTOUCHED};
use bleiwurzel::{answer, finding, Answer, Parts, Platform};
use plain_sha256::digest_in_parts;

/// Holds the grammar of the policy file to what is worked out of it by itself, where the answer rests on it: 27 where there is a fault, at its
/// place, and no other number. All other numbers have place 0. What is no capture has no parts.
pub fn hold_place(name: &str, given: &Answer, seen: Option<(Parts, Platform)>) {
    let by_a_list = given.number == 0 && given.list != 255;
    let fault = match seen {
        Some((parts, platform)) if by_a_list || (27..=29).contains(&given.number) => place(policy_bytes(&parts, &platform)),
        _ => None,
    };
    assert_eq!((given.number == 27).then_some(given.place), fault, "{name}: the place of {given:?}");
    assert!(given.number == 27 || given.place == 0, "{name}: {given:?}");
}

/// The answer, after looking at the page list, the digest, the place and the number by the check in ordinary Rust.
pub fn asked(name: &str, image: &Image) -> Answer {
    let mut pages = vec![UNTOUCHED; image.places];
    let given = answer(&image.parts(), &image.platform, &mut pages);
    let found = finding::first(&image.parts(), &image.platform, image.places);
    assert_eq!(found.map_or(0, |finding| finding.number), given.number, "{name}: the finding's number");
    hold_place(name, &given, Some((image.parts(), image.platform)));
    let listed: &[u64] = if given.number == 0 { &image.listed } else { &[] };
    for (k, place) in pages.iter().enumerate() {
        assert_eq!(*place, listed.get(k).copied().unwrap_or(UNTOUCHED), "{name}: place {k} of {}", image.places);
    }
    let digest = if given.number == 0 { digest_in_parts(&image.bytes(), 0) } else { [0; 32] };
    assert_eq!((given.pages as usize, given.digest), (listed.len(), digest), "{name}: pages and digest");
    if given.number != 0 {
        assert_eq!(given.list, 255, "{name}: the list of a refusal");
    }
    given
}

/// What the capture program prints for an answer.
pub fn printed(answer: &Answer, pages: &[u64]) -> String {
    if answer.number == 27 {
        return format!("refused 27 at {}\n", answer.place);
    }
    if answer.number != 0 {
        return format!("refused {}\n", answer.number);
    }
    let addresses: String = pages[..answer.pages as usize].iter().map(|page| format!("{page:016x}\n")).collect();
    format!("permitted pages={} list={}\n{addresses}", answer.pages, answer.list)
}

/// What is changed in a good image, and what the check answers for it then.
pub type Changed<T> = (&'static str, fn(&mut Image), T);

/// The same with the answer's number.
pub type Case = Changed<u32>;

/// Holds the check to a table: says of all cases at once which are not as expected.
#[track_caller]
pub fn hold(good: &Image, cases: &[Case]) {
    hold_by(good, cases, |name, image, number| (asked(name, image).number.to_string(), number.to_string()));
}

/// The same where it is told by two texts, of what is given and of what is expected.
#[track_caller]
pub fn hold_by<T>(good: &Image, cases: &[Changed<T>], texts: impl Fn(&str, &Image, &T) -> (String, String)) {
    let of = |(name, change, expected): &Changed<T>| {
        let mut image = good.clone();
        change(&mut image);
        let (given, expected) = texts(name, &image, expected);
        (given != expected).then(|| format!("{name}: {given}, not {expected}"))
    };
    let wrong: Vec<String> = cases.iter().filter_map(of).collect();
    assert!(wrong.is_empty(), "{} of {} cases: {wrong:#?}", wrong.len(), cases.len());
}
