//! The two checks of one input side by side: the answer, with pages, list, place and digest, and the whole page list. Its places are filled before
//! with a pattern, so that it is seen which were written; a check that panics differs from one that answers.

use crate::subject::{Form, Subject, CAPTURE};
use inputs::{Answer, MOST_PAGES};
use samples::UNTOUCHED;
use std::panic::{catch_unwind, AssertUnwindSafe};

/// The page lists of both, which are reused, and what is in each place of them before a check.
pub struct PageLists {
    pattern: Vec<u64>,
    twin: Vec<u64>,
    proved: Vec<u64>,
}

impl PageLists {
    pub fn new() -> Self {
        let pattern: Vec<u64> = (0..MOST_PAGES as u64).map(|place| UNTOUCHED ^ place).collect();
        PageLists { twin: pattern.clone(), proved: pattern.clone(), pattern }
    }

    /// The answer of both, or how the two differ.
    pub fn compare(&mut self, subject: &Subject) -> Result<Answer, String> {
        let places = subject.places;
        let (twin, proved) = (&mut self.twin[..places], &mut self.proved[..places]);
        // A page list that a panic has left half written is only looked at as far as its places go.
        let ours = catch_unwind(AssertUnwindSafe(|| by_twin(subject, twin))).map_err(|_| "the twin panicked".to_string())?;
        let theirs = by_library(subject, proved);
        same(&ours, &theirs, twin, proved, &self.pattern[..places])?;
        let written = ours.pages as usize;
        twin[..written].copy_from_slice(&self.pattern[..written]);
        proved[..written].copy_from_slice(&self.pattern[..written]);
        Ok(ours)
    }
}

fn by_twin(subject: &Subject, pages: &mut [u64]) -> Answer {
    match subject.form {
        Form::Capture => twin::answer_capture(&subject.bytes[CAPTURE], pages),
        Form::Parts => twin::answer(&subject.parts(), &subject.platform, pages),
    }
}

fn by_library(subject: &Subject, pages: &mut [u64]) -> Answer {
    match subject.form {
        Form::Capture => library::check_capture(&subject.bytes[CAPTURE], pages),
        Form::Parts => library::check(&subject.parts(), &subject.platform, pages),
    }
}

/// Whether answers and page lists are the same, and the places behind the pages, which are all on a refusal, are as before.
fn same(ours: &Answer, theirs: &Answer, twin: &[u64], proved: &[u64], pattern: &[u64]) -> Result<(), String> {
    if ours != theirs {
        return Err(format!("the answers differ\n  twin:   {ours:?}\n  proved: {theirs:?}"));
    }
    if let Some(place) = (0..pattern.len()).find(|place| twin[*place] != proved[*place]) {
        let (twin, proved) = (twin[place], proved[place]);
        return Err(format!(
            "the page lists differ at place {place}, with {ours:?}\n  twin:   {twin:#018x}\n  proved: {proved:#018x}"
        ));
    }
    let pages = ours.pages as usize;
    if twin.get(pages..) != pattern.get(pages..) {
        return Err(format!("both wrote to a place behind the pages, with {ours:?}"));
    }
    Ok(())
}

#[cfg(test)]
mod tests {
    use super::*;
    use crate::subject::{Turns, HEAP, RECORD};
    use samples::{image, Shape};

    const PERMISSION: Answer = Answer { number: 0, pages: 1, list: 255, place: 0, digest: [7; 32] };
    const REFUSAL: Answer = Answer { number: 27, pages: 0, list: 255, place: 36, digest: [0; 32] };

    #[test]
    fn every_difference_is_seen() {
        let pattern = [1, 2, 3];
        let listed = [0x1000, 2, 3];
        assert_eq!(same(&PERMISSION, &PERMISSION, &listed, &listed, &pattern), Ok(()));
        assert_eq!(same(&REFUSAL, &REFUSAL, &pattern, &pattern, &pattern), Ok(()));
        let others = [
            Answer { number: 28, ..REFUSAL },
            Answer { pages: 1, ..REFUSAL },
            Answer { list: 0, ..REFUSAL },
            Answer { place: 35, ..REFUSAL },
            Answer { digest: [1; 32], ..REFUSAL },
        ];
        for other in others {
            assert!(same(&REFUSAL, &other, &pattern, &pattern, &pattern).is_err(), "{other:?}");
        }
        assert!(same(&PERMISSION, &PERMISSION, &listed, &[0x2000, 2, 3], &pattern).is_err());
        assert!(same(&PERMISSION, &PERMISSION, &listed, &[0x1000, 2, 4], &pattern).is_err());
        assert!(same(&PERMISSION, &PERMISSION, &[0x1000, 2, 4], &[0x1000, 2, 4], &pattern).is_err());
        assert!(same(&REFUSAL, &REFUSAL, &listed, &listed, &pattern).is_err());
    }

    #[test]
    fn lists_are_as_before_after_each_comparison() {
        let mut lists = PageLists::new();
        let mut subject = Subject::of_image("two pages", image(&Shape::default()), 2, Turns { times: 1, every: 1 });
        let number = |lists: &mut PageLists, subject: &Subject| lists.compare(subject).map(|answer| answer.number);
        assert_eq!(number(&mut lists, &subject), Ok(0));
        assert!(lists.twin == lists.pattern && lists.proved == lists.pattern);
        subject.cut(RECORD, 1);
        assert_eq!(number(&mut lists, &subject), Ok(23));
        subject.cut(HEAP, 1);
        assert_eq!(number(&mut lists, &subject), Ok(2));
        assert!(lists.twin == lists.pattern && lists.proved == lists.pattern);
    }
}
