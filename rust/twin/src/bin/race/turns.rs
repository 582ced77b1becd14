//! The turns of a row. In each turn both sides do the same work once, or as often as makes a turn long enough for the clock; which side begins alternates, so
//! that neither always finds what the other left in the caches. Every result is compared with what is expected.

use crate::row::{Outcome, Row};
use std::time::Instant;

/// A side's turn takes at least so long, in seconds, and a row about so long unless its fewest turns take longer.
const TURN: f64 = 150e-6;
const ROW: f64 = 0.8;
const FEWEST: usize = 25;
const MOST: usize = 1001;
/// The turns before those that count take about so long, and are at most so many.
const WARMING: f64 = 0.02;
const MOST_WARMING: f64 = 20.0;

/// The times are seconds of one call.
pub struct Measured {
    pub best_proved: f64,
    pub best_twin: f64,
    /// The median of the turns' ratios.
    pub median: f64,
    pub turns: usize,
    pub calls: usize,
}

/// The seconds of one call, of so many.
fn timed(side: &mut dyn FnMut() -> Outcome, expected: &Outcome, calls: usize) -> f64 {
    let start = Instant::now();
    for _ in 0..calls {
        assert_eq!(&side(), expected);
    }
    start.elapsed().as_secs_f64() / calls as f64
}

pub fn race(row: &mut Row) -> Measured {
    let expected = row.expected;
    let mut turn = |proved_first: bool, calls: usize| -> [f64; 2] {
        if proved_first {
            let proved = timed(&mut row.proved, &expected, calls);
            return [proved, timed(&mut row.twin, &expected, calls)];
        }
        let twin = timed(&mut row.twin, &expected, calls);
        [timed(&mut row.proved, &expected, calls), twin]
    };
    // The first turns are not counted: they bring the inputs into the caches, and the shortest calls of them say how long one takes.
    let mut shortest = turn(true, 1);
    for number in 0..(WARMING / (shortest[0] + shortest[1])).min(MOST_WARMING) as usize {
        let [proved, twin] = turn(number % 2 == 1, 1);
        shortest = [shortest[0].min(proved), shortest[1].min(twin)];
    }
    let [proved, twin] = shortest;
    let calls = (TURN / proved.min(twin)).ceil().max(1.0) as usize;
    // An odd number, so that one turn has the median.
    let turns = ((ROW / ((proved + twin) * calls as f64)) as usize).clamp(FEWEST, MOST) | 1;
    measured((0..turns).map(|number| turn(number % 2 == 0, calls)).collect(), calls)
}

fn measured(times: Vec<[f64; 2]>, calls: usize) -> Measured {
    let best = |side: usize| times.iter().map(|turn| turn[side]).fold(f64::INFINITY, f64::min);
    let mut ratios: Vec<f64> = times.iter().map(|[proved, twin]| proved / twin).collect();
    ratios.sort_by(f64::total_cmp);
    Measured { best_proved: best(0), best_twin: best(1), median: ratios[ratios.len() / 2], turns: times.len(), calls }
}

#[cfg(test)]
mod tests {
    use super::*;

    #[test]
    fn the_least_time_of_each_side_and_the_median_of_the_ratios() {
        let given = measured(vec![[2.0, 1.0], [3.0, 3.0], [8.0, 2.0], [9.0, 3.0], [1.0, 4.0]], 6);
        assert_eq!((given.best_proved, given.best_twin, given.median, given.turns, given.calls), (1.0, 1.0, 2.0, 5, 6));
    }
}
