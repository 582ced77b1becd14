//! A row of the race: the same work by both sides, what it must give, and which ratio is aimed at.

use inputs::{Answer, Platform};
use samples::{Image, UNTOUCHED};
use std::rc::Rc;

/// What the two sides are aimed at: the ratio of the proved time to the twin's.
pub const AIM_OF_PAGES: f64 = 1.05;
pub const AIM_OF_LISTS: f64 = 1.10;
pub const AIM_OF_OTHERS: f64 = 1.5;

/// What one piece of work gives.
#[derive(Clone, Copy, Debug, PartialEq, Eq)]
pub enum Outcome {
    Checked(Answer),
    /// A policy file by itself: how many lists it has, or its number.
    Read(Result<usize, u32>),
    Verified(bool),
}

pub struct Row {
    pub name: &'static str,
    pub aim: f64,
    /// Whether `--at-most` judges it.
    pub named: bool,
    pub expected: Outcome,
    pub proved: Box<dyn FnMut() -> Outcome>,
    pub twin: Box<dyn FnMut() -> Outcome>,
}

impl Row {
    pub fn named(self) -> Self {
        Row { named: true, ..self }
    }
}

/// The check of an image on a platform, which must give this number and, where it permits, this list. Both sides have a page list of their own, which is
/// reused.
pub fn check(name: &'static str, aim: f64, image: &Rc<Image>, platform: Platform, number: u32, list: u32) -> Row {
    let answer = same(name, image, &platform);
    assert_eq!((answer.number, answer.list), (number, list), "{name}");
    let (of_proved, of_twin) = (Rc::clone(image), Rc::clone(image));
    let mut pages = vec![0; image.listed.len()];
    let mut pages_of_twin = pages.clone();
    Row {
        name,
        aim,
        named: false,
        expected: Outcome::Checked(answer),
        proved: Box::new(move || Outcome::Checked(library::check(&of_proved.parts(), &platform, &mut pages))),
        twin: Box::new(move || Outcome::Checked(twin::answer(&of_twin.parts(), &platform, &mut pages_of_twin))),
    }
}

/// The answer of both, whose page lists are compared, too; every place is filled before, so that it is seen which were written.
fn same(name: &str, image: &Image, platform: &Platform) -> Answer {
    let pattern: Vec<u64> = (0..image.listed.len() as u64 + 1).map(|place| UNTOUCHED ^ place).collect();
    let (mut proved, mut twin) = (pattern.clone(), pattern.clone());
    let answer = library::check(&image.parts(), platform, &mut proved);
    assert_eq!(twin::answer(&image.parts(), platform, &mut twin), answer, "{name}");
    let pages = answer.pages as usize;
    assert!(proved == twin && proved[pages..] == pattern[pages..], "{name}: the page list");
    assert!(pages == 0 || proved[..pages] == image.listed, "{name}: the pages");
    answer
}

/// The reading of a policy file.
pub fn read(name: &'static str, file: Vec<u8>, lists: usize) -> Row {
    let file = Rc::new(file);
    let of_twin = Rc::clone(&file);
    let by_library = move || match library::policy(&file) {
        (0, lists, _) => Ok(lists as usize),
        (number, _, _) => Err(number),
    };
    Row {
        name,
        aim: AIM_OF_OTHERS,
        named: false,
        expected: Outcome::Read(Ok(lists)),
        proved: Box::new(move || Outcome::Read(by_library())),
        twin: Box::new(move || Outcome::Read(twin::policy::read(&of_twin).map_err(|stop| stop.number))),
    }
}

/// One verification of a signature that verifies.
pub fn verify(name: &'static str, list: samples::SignedList) -> Row {
    let of_twin = list.clone();
    Row {
        name,
        aim: AIM_OF_OTHERS,
        named: false,
        expected: Outcome::Verified(true),
        proved: Box::new(move || Outcome::Verified(library::rsa_verify(list.key(), list.signature(), list.message()))),
        twin: Box::new(move || Outcome::Verified(twin::rsa_verify(of_twin.key(), of_twin.signature(), of_twin.message()))),
    }
}
