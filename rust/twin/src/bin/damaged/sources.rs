//! The sources of damaged copies: images that are built here, the cases with STM images, and the stored captures, each as a capture and split into its
//! parts. Large images come seldom, since the digest of one takes as long as thousands of other copies.

mod images;
mod large;

use crate::damage::{Donor, Donors};
use crate::subject::{Form, Subject, Turns, CAPTURE_PLACES};
use samples::{captures, lent_cases, split_lent};

/// Stored inputs have one copy in each round.
const STORED: Turns = Turns { times: 1, every: 1 };
/// The cases with STM images are few, and no capture is like them.
const LENT: Turns = Turns { times: 4, every: 1 };

/// All sources, in the order in which copies of them are made.
pub fn all() -> Vec<Subject> {
    let mut sources = images::all();
    sources.extend(large::all());
    sources.extend(lent());
    sources.extend(stored());
    sources
}

fn lent() -> Vec<Subject> {
    let case = |(name, case): (String, Vec<u8>)| {
        let (parts, platform, places) = split_lent(&case);
        Subject::of_parts(name, &parts, &platform, places, LENT)
    };
    lent_cases().into_iter().map(case).collect()
}

fn stored() -> Vec<Subject> {
    let mut sources = Vec::new();
    for (name, capture) in captures() {
        if let Ok((parts, platform)) = twin::capture::split(&capture) {
            sources.push(Subject::of_parts(format!("parts of {name}"), &parts, &platform, CAPTURE_PLACES, STORED));
        }
        sources.push(Subject::of_capture(name, capture, STORED));
    }
    sources
}

/// The most bytes of a part that is put into other sources.
const MOST_DONATED: usize = 1 << 17;

/// The sources whose parts are put into others. Those with long parts are left out, since a part that is put in place is copied.
pub fn donors(sources: &[Subject]) -> Donors {
    let of = |form: Form| {
        let short = |source: &&Subject| source.form == form && source.bytes.iter().all(|part| part.len() <= MOST_DONATED);
        let donor = |source: &Subject| Donor { name: source.name.clone(), bytes: source.bytes.clone() };
        sources.iter().filter(short).map(donor).collect()
    };
    Donors { captures: of(Form::Capture), parts: of(Form::Parts) }
}
