//! The race: the proved library against the check in ordinary Rust, both built for release and called from one process, in turns.
//!
//! With `--at-most R` the status is 1 where the median of the ratios of a named case is above R. It is 2 for wrong arguments.

#![forbid(unsafe_code)]

mod lists;
mod row;
mod rows;
mod turns;

use row::Row;
use std::process::ExitCode;
use turns::Measured;

const USAGE: &str = "usage: race [--at-most R]
Times the proved library against the check in ordinary Rust. With --at-most, it fails where the median ratio of a named case,
marked with *, is above R.";

const HEADING: &str = "\
The time of one call of the proved library and of the check in ordinary Rust (twin), in turns in one process. No caller clears a buffer before a call: each side's
page list is allocated once and reused. The library allocates nothing; its wrapper in Rust fills 332 bytes of arrays for the answer and the reserved ranges. The
twin allocates in each call: the pages, which it copies to the page list at the end, the tables of two levels, the forbidden ranges that touch the window where
there are any, and under LIST the lists. Ratios are proved to twin; the median is that of the ratios of the turns, by which aim and --at-most are judged. The
named cases have a *.";

/// The limit, infinite where none is given.
fn limit(words: &[String]) -> Option<f64> {
    match words {
        [] => Some(f64::INFINITY),
        [flag, number] if flag == "--at-most" => number.parse().ok().filter(|limit: &f64| limit.is_finite() && *limit > 0.0),
        _ => None,
    }
}

/// A time with three to four digits.
fn shown(seconds: f64) -> String {
    if seconds < 1e-3 {
        return format!("{:.2} µs", seconds * 1e6);
    }
    format!("{:.2} ms", seconds * 1e3)
}

fn show(row: &Row, measured: &Measured) {
    let Measured { best_proved, best_twin, median, turns, calls } = measured;
    let name = format!("{}{}", row.name, if row.named { " *" } else { "" });
    let met = if *median <= row.aim { "met" } else { "not met" };
    println!(
        "{name:<50} {:>10} {:>10} {:>8.3} {median:>8.3}  {:.2}  {met:<7}  {turns} of {calls}",
        shown(*best_proved),
        shown(*best_twin),
        best_proved / best_twin,
        row.aim,
    );
}

fn main() -> ExitCode {
    let words: Vec<String> = std::env::args().skip(1).collect();
    let limit = match limit(&words) {
        Some(limit) => limit,
        None => {
            eprintln!("{USAGE}");
            return ExitCode::from(2);
        }
    };
    println!("{HEADING}");
    let (mut rows, notes) = rows::all();
    notes.iter().for_each(|note| println!("{note}"));
    println!("{:<50} {:>10} {:>10} {:>8} {:>8}  aim   met      turns of calls", "row", "proved", "twin", "of best", "median");
    let mut kept = true;
    for row in &mut rows {
        let measured = turns::race(row);
        show(row, &measured);
        if row.named && measured.median > limit {
            eprintln!("{}: {:.3} is above {limit}", row.name, measured.median);
            kept = false;
        }
    }
    if kept {
        return ExitCode::SUCCESS;
    }
    ExitCode::FAILURE
}

#[cfg(test)]
mod tests {
    use super::*;

    #[test]
    fn the_limit_is_a_number_above_0() {
        let of = |words: &[&str]| limit(&words.iter().map(|word| word.to_string()).collect::<Vec<_>>());
        assert_eq!((of(&[]), of(&["--at-most", "1.5"])), (Some(f64::INFINITY), Some(1.5)));
        for wrong in [
            &["1.5"][..],
            &["--at-most"],
            &["--at-most", "x"],
            &["--at-most", "0"],
            &["--at-most", "inf"],
            &["--at-most", "2", "3"],
        ] {
            assert_eq!(of(wrong), None, "{wrong:?}");
        }
    }
}
