//! How often each number was met, how often a list permitted, and how many copies each source had.

use inputs::{Answer, NO_LIST};

/// The highest number of the check.
const HIGHEST: usize = 30;
/// From so many copies on every number must have been met, and every source must have had one.
const ENOUGH: u64 = 100_000;

pub struct Tally {
    numbers: [u64; HIGHEST + 1],
    /// The permissions by a list.
    by_list: u64,
    /// The copies of each source.
    sources: Vec<u64>,
}

impl Tally {
    pub fn new(sources: usize) -> Self {
        Tally { numbers: [0; HIGHEST + 1], by_list: 0, sources: vec![0; sources] }
    }

    /// Counts a copy of the source of this number.
    pub fn count(&mut self, source: usize, answer: &Answer) {
        self.sources[source] += 1;
        self.numbers[answer.number as usize] += 1;
        self.by_list += u64::from(answer.number == 0 && answer.list != NO_LIST);
    }

    pub fn copies(&self) -> u64 {
        self.numbers.iter().sum()
    }

    /// The numbers that were never met, where there were so many copies that all should have been.
    pub fn missing(&self) -> Vec<usize> {
        self.zeros(&self.numbers)
    }

    /// The numbers of the sources that had no copy, where there were so many copies that all should have had one.
    pub fn without_copy(&self) -> Vec<usize> {
        self.zeros(&self.sources)
    }

    fn zeros(&self, counts: &[u64]) -> Vec<usize> {
        let enough = self.copies() >= ENOUGH;
        (0..counts.len()).filter(|index| enough && counts[*index] == 0).collect()
    }

    /// A line for each number.
    pub fn print(&self) {
        println!("number  copies");
        self.numbers.iter().enumerate().for_each(|(number, copies)| println!("{number:6}  {copies:6}"));
        println!("of the copies that are permitted, {} by a list", self.by_list);
        let (fewest, most) = (self.sources.iter().min(), self.sources.iter().max());
        println!("copies of a source: {} to {}", fewest.unwrap_or(&0), most.unwrap_or(&0));
    }
}

#[cfg(test)]
mod tests {
    use super::*;

    fn answer(number: usize) -> Answer {
        Answer { number: number as u32, pages: 0, list: NO_LIST, place: 0, digest: [0; 32] }
    }

    #[test]
    fn a_number_is_missed_among_enough_copies() {
        let mut tally = Tally::new(1);
        (0..HIGHEST).for_each(|number| tally.count(0, &answer(number)));
        assert_eq!(tally.missing(), []);
        (0..ENOUGH - HIGHEST as u64 - 1).for_each(|_| tally.count(0, &answer(0)));
        assert_eq!((tally.copies(), tally.missing()), (ENOUGH - 1, vec![]));
        tally.count(0, &Answer { list: 0, ..answer(0) });
        assert_eq!((tally.missing(), tally.by_list), (vec![HIGHEST], 1));
        tally.count(0, &answer(30));
        assert_eq!(tally.missing(), []);
    }

    #[test]
    fn a_source_without_a_copy_is_named_among_enough_copies() {
        let mut tally = Tally::new(3);
        (0..ENOUGH - 1).for_each(|copy| tally.count(2 * (copy as usize % 2), &answer(0)));
        assert_eq!(tally.without_copy(), []);
        tally.count(0, &answer(0));
        assert_eq!(tally.without_copy(), [1]);
        tally.count(1, &answer(0));
        assert_eq!(tally.without_copy(), []);
    }
}
