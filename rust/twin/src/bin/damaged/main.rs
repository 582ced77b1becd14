//! Damaged copies of inputs, for which the check in ordinary Rust and the proved library must give the same answer and page list. First each source is
//! compared as it is, then the asked number of copies, made by a fixed generator of numbers, and last the repaired sources once more. Each copy differs
//! from its source, and each repaired source is what it was, byte by byte.
//!
//! The status is 1 where the two differ, with the first difference written out and its inputs saved, and where of 100,000 copies or more none was answered
//! with some number from 0 to 30, or none was made of some source. It is 2 for wrong arguments.

#![forbid(unsafe_code)]

mod aims;
mod compare;
mod damage;
mod dice;
mod platform;
mod report;
mod sources;
mod subject;
mod tally;

use compare::PageLists;
use damage::Donors;
use dice::Dice;
use inputs::Answer;
use std::path::PathBuf;
use std::process::ExitCode;
use std::time::Instant;
use subject::{Form, Subject};
use tally::Tally;

const USAGE: &str = "usage: damaged COUNT SEED [--save FILE]
Compares COUNT damaged copies, made from SEED; both are numbers. Where the two checks differ, the inputs are saved in FILE,
else in target/damaged.cap or target/damaged.case.";

/// What is asked for.
struct Asked {
    count: u64,
    seed: u64,
    save: Option<PathBuf>,
}

impl Asked {
    fn read(words: &[String]) -> Option<Self> {
        let (count, seed, save) = match words {
            [count, seed] => (count, seed, None),
            [count, seed, flag, path] if flag == "--save" => (count, seed, Some(PathBuf::from(path))),
            _ => return None,
        };
        Some(Asked { count: count.parse().ok()?, seed: seed.parse().ok()?, save })
    }

    fn path(&self, form: Form) -> PathBuf {
        let name = match form {
            Form::Capture => "target/damaged.cap",
            Form::Parts => "target/damaged.case",
        };
        self.save.clone().unwrap_or_else(|| PathBuf::from(name))
    }
}

/// A difference: which of the sources, and how the two differ.
struct Difference {
    source: usize,
    copy: u64,
    how: String,
}

/// Compares each source as it is, without any damage. The answers must be those of before, where there are any.
fn undamaged(lists: &mut PageLists, sources: &[Subject], before: &[Answer]) -> Result<Vec<Answer>, Difference> {
    let mut answers = Vec::with_capacity(sources.len());
    for (source, subject) in sources.iter().enumerate() {
        let answer = lists.compare(subject).map_err(|how| Difference { source, copy: 0, how })?;
        let as_before = before.get(source).map_or(true, |before| *before == answer);
        assert!(as_before && !subject.differs(), "{} was not repaired", subject.name);
        answers.push(answer);
    }
    Ok(answers)
}

/// Which of the sources has the next copy: one after the other, as often as each is asked for in a round.
fn order(sources: &[Subject]) -> impl Iterator<Item = usize> {
    let turns: Vec<_> = sources.iter().map(|subject| subject.turns).collect();
    let in_round = move |round: usize| -> Vec<usize> {
        let asked = |source: &usize| (round + source) % turns[*source].every == 0;
        (0..turns.len()).filter(asked).flat_map(|source| vec![source; turns[source].times]).collect()
    };
    (0..).flat_map(in_round)
}

/// Compares the copies. On a difference the damaged source is left as it is.
fn copies(asked: &Asked, lists: &mut PageLists, sources: &mut [Subject], donors: &Donors) -> Result<Tally, Difference> {
    let (mut dice, mut tally) = (Dice::new(asked.seed), Tally::new(sources.len()));
    for (copy, source) in (0..asked.count).zip(order(sources)) {
        let subject = &mut sources[source];
        damage::damage(&mut dice, subject, donors);
        let answer = lists.compare(subject).map_err(|how| Difference { source, copy: copy + 1, how })?;
        tally.count(source, &answer);
        subject.repair();
    }
    Ok(tally)
}

fn compare(asked: &Asked, sources: &mut [Subject]) -> Result<Tally, Difference> {
    let (mut lists, donors) = (PageLists::new(), sources::donors(sources));
    let answers = undamaged(&mut lists, sources, &[])?;
    let tally = copies(asked, &mut lists, sources, &donors)?;
    undamaged(&mut lists, sources, &answers)?;
    Ok(tally)
}

fn show_difference(asked: &Asked, difference: &Difference, subject: &Subject) {
    let path = asked.path(subject.form);
    println!("copy {} of seed {}, of '{}', {} places", difference.copy, asked.seed, subject.name, subject.places);
    print!("damages:\n{}", report::damages(subject));
    println!("{}", difference.how);
    match report::save(subject, &path) {
        Ok(()) => println!("the inputs are saved in {}", path.display()),
        Err(error) => println!("the inputs could not be saved in {}: {error}", path.display()),
    }
}

fn main() -> ExitCode {
    let words: Vec<String> = std::env::args().skip(1).collect();
    let asked = match Asked::read(&words) {
        Some(asked) => asked,
        None => {
            eprintln!("{USAGE}");
            return ExitCode::from(2);
        }
    };
    let start = Instant::now();
    let mut sources = sources::all();
    let tally = match compare(&asked, &mut sources) {
        Ok(tally) => tally,
        Err(difference) => {
            show_difference(&asked, &difference, &sources[difference.source]);
            return ExitCode::FAILURE;
        }
    };
    tally.print();
    let (copies, seconds) = (tally.copies(), start.elapsed().as_secs_f64());
    println!("{copies} damaged copies of {} sources, seed {}: no difference ({seconds:.1} s)", sources.len(), asked.seed);
    all_met(&tally, &sources)
}

/// Fails where a number was never met or a source had no copy, and says which.
fn all_met(tally: &Tally, sources: &[Subject]) -> ExitCode {
    let (missing, without_copy) = (tally.missing(), tally.without_copy());
    if !missing.is_empty() {
        println!("never met: {missing:?}");
    }
    without_copy.iter().for_each(|source| println!("no copy was made of '{}'", sources[*source].name));
    if missing.is_empty() && without_copy.is_empty() {
        return ExitCode::SUCCESS;
    }
    ExitCode::FAILURE
}
