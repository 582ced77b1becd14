//! Times the check of images of 1,024, 4,096 and 16,384 pages against the digest of their pages: refused by the MLE header, which is after all page
//! work but the page list and before the digest, and permitted. The refused check stands once more beside that, on a platform with as many reserved
//! ranges as there may be, with each of which every table and page is compared; and plain Rust's digest of the pages, in parts of a page, and one
//! verification of a signed list with the longer key. All take turns in one process. What a page costs is compared with what it costs in the
//! smallest image, which shows whether the time grows as the pages do.
//!
//! With `--at-most R` it fails where a refused check takes more than R of its digest's time, or a page in it more than in the smallest image; where a
//! permitted one takes more than half as much again as the digest, or a page in it half as much again as in the smallest image; where of 4,096 pages
//! the refused check with reserved ranges takes more than three times as long as without, or more than a hundredth of the digest's time; or where one
//! verification takes more than a twentieth of the digest of 4,096 pages. These are loose bounds, so that another program on the machine does not
//! break them: a refused check has a fixed part, so that a page costs little more than half in a larger image. The median of the ratios of one run
//! counts, which such a program changes least.

use bleiwurzel::{answer, policy, rsa_verify, sha256, Answer, MemoryRange, Platform, Reserved};
use bleiwurzel::{MOST_PAGES, MOST_RESERVED, PAGE_SIZE};
use samples::*;
use std::time::Instant;

const RUNS: usize = 15;
const SIZES: [usize; 3] = [1024, 4096, MOST_PAGES];
/// The place in `SIZES` of the image whose digest a verification is compared with, and of which reserved ranges have bounds.
const MIDDLE: usize = 1;
const HEADER_FAULT: u32 = 22;
const MOST_WHOLE: f64 = 1.5;
const MOST_WHOLE_GROWTH: f64 = 1.5;
const MOST_EARLY_GROWTH: f64 = 1.0;
const MOST_VERIFICATION: f64 = 0.05;
const MOST_RANGED: f64 = 0.01;
const MOST_RANGED_TO_EARLY: f64 = 3.0;
const KEY_SIZE: usize = 384;

/// What is timed of each image.
const HASHED: usize = 0;
const EARLY: usize = 1;
const WHOLE: usize = 2;
const PLAIN: usize = 3;
const RANGED: usize = 4;
const TIMES: usize = 5;

/// The seconds of one run: of each image, and of one verification.
struct Run {
    images: [[f64; TIMES]; SIZES.len()],
    verified: f64,
}

/// An image, the same with one byte of the mark of its MLE header changed, the platform with reserved ranges, and the bytes of its pages.
struct Subject {
    good: Image,
    bad: Image,
    ranged: Platform,
    content: Vec<u8>,
}

/// The platform of an image with as many reserved ranges as there may be, in turn below and above its window.
fn with_ranges(image: &Image) -> Platform {
    let (begin, end) = (image.platform.window_base, image.address(image.window.len() / PAGE));
    let base = |k: u64| if k % 2 == 0 { begin - (k + 1) * PAGE_SIZE } else { end + k * PAGE_SIZE };
    let ranges: Vec<MemoryRange> = (0..MOST_RESERVED as u64).map(|k| MemoryRange { base: base(k), size: PAGE_SIZE }).collect();
    Platform { reserved: Reserved::new(&ranges).expect("as many as there may be"), ..image.platform }
}

impl Subject {
    fn of(pages: usize) -> Self {
        let good = image(&Shape { pages, ..Shape::default() });
        let mut bad = good.clone();
        let mark = bad.header(0);
        bad.window[mark] ^= 1;
        Subject { content: good.bytes(), ranged: with_ranges(&good), good, bad }
    }

    /// The times of one run, in which every result is looked at.
    fn times(&self) -> [f64; TIMES] {
        let mut pages = vec![0; self.good.listed.len()];
        let mut asked =
            |image: &Image, platform: &Platform| -> (f64, Answer) { timed(|| answer(&image.parts(), platform, &mut pages)) };
        let (hashed, digest) = timed(|| sha256(&self.content));
        let (early, refusal) = asked(&self.bad, &self.bad.platform);
        let (ranged, with_ranges) = asked(&self.bad, &self.ranged);
        let (whole, permission) = asked(&self.good, &self.good.platform);
        let (plain, theirs) = timed(|| plain_sha256::digest_in_parts(&self.content, PAGE_SIZE as usize));
        assert_eq!((refusal.number, permission.number, permission.digest, digest), (HEADER_FAULT, 0, theirs, theirs));
        assert_eq!(
            (with_ranges, pages),
            (refusal, self.good.listed.clone()),
            "the answer with reserved ranges, and the page list"
        );
        [hashed, early, whole, plain, ranged]
    }
}

fn timed<T>(work: impl FnOnce() -> T) -> (f64, T) {
    let start = Instant::now();
    let result = work();
    (start.elapsed().as_secs_f64(), result)
}

/// The list of a stored policy file of one signed list.
fn signed_list() -> SignedList {
    let file = std::fs::read(top().join("rust/bleiwurzel/tests/data/signed/one-3072.data")).expect("a stored policy file");
    let list = SignedList(file[policy::FIRST_LIST..].to_vec());
    assert_eq!((list.key().len(), list.signature_range().end), (KEY_SIZE, list.0.len()), "the stored list");
    list
}

fn run(subjects: &[Subject; SIZES.len()], list: &SignedList) -> Run {
    let images = std::array::from_fn(|size| subjects[size].times());
    let (verified, verifies) = timed(|| rsa_verify(list.key(), list.signature(), list.message()));
    assert!(verifies, "the stored signature");
    Run { images, verified }
}

/// The least of all runs, in microseconds.
fn best(runs: &[Run], time: impl Fn(&Run) -> f64) -> f64 {
    runs.iter().map(time).fold(f64::INFINITY, f64::min) * 1e6
}

fn median(runs: &[Run], ratio: impl Fn(&Run) -> f64) -> f64 {
    let mut values: Vec<f64> = runs.iter().map(ratio).collect();
    values.sort_by(f64::total_cmp);
    values[values.len() / 2]
}

/// The ratio to the digest of the same image.
fn share(runs: &[Run], size: usize, what: usize) -> f64 {
    median(runs, |run| run.images[size][what] / run.images[size][HASHED])
}

/// The ratio of the refused check with reserved ranges to that without.
fn with_to_without(runs: &[Run], size: usize) -> f64 {
    median(runs, |run| run.images[size][RANGED] / run.images[size][EARLY])
}

/// What a page costs, to what it costs in the smallest image.
fn growth(runs: &[Run], size: usize, what: usize) -> f64 {
    let pages = SIZES[size] as f64 / SIZES[0] as f64;
    median(runs, |run| run.images[size][what] / run.images[0][what] / pages)
}

/// Whether what was measured of an image keeps the bounds.
fn kept(runs: &[Run], size: usize, limit: f64) -> bool {
    let shares = share(runs, size, EARLY) <= limit && share(runs, size, WHOLE) <= MOST_WHOLE;
    // The smallest image is compared with itself, which is 1.
    shares && growth(runs, size, EARLY) <= MOST_EARLY_GROWTH && growth(runs, size, WHOLE) <= MOST_WHOLE_GROWTH
}

/// Whether reserved ranges cost no more than they may.
fn ranges_kept(runs: &[Run]) -> bool {
    with_to_without(runs, MIDDLE) <= MOST_RANGED_TO_EARLY && share(runs, MIDDLE, RANGED) <= MOST_RANGED
}

fn show(runs: &[Run], size: usize) {
    let [hashed, early, whole, plain] = [HASHED, EARLY, WHOLE, PLAIN].map(|what| best(runs, |run| run.images[size][what]));
    let (before, all) = (share(runs, size, EARLY), share(runs, size, WHOLE));
    let (before_growth, all_growth) = (growth(runs, size, EARLY), growth(runs, size, WHOLE));
    println!(
        "{:5} pages: digest {hashed:.1} µs; the check up to the digest {early:.1} µs, {before:.5} of it; the whole check {whole:.1} µs, {all:.3} of \
         it; plain Rust's digest {plain:.1} µs; a page to one of {}: up to the digest {before_growth:.3}, in all {all_growth:.3}",
        SIZES[size],
        SIZES[0],
    );
    let (ranged, ratio, of_digest) =
        (best(runs, |run| run.images[size][RANGED]), with_to_without(runs, size), share(runs, size, RANGED));
    println!(
        "{:5} pages, {MOST_RESERVED} reserved ranges: the check up to the digest {ranged:.1} µs, {ratio:.3} of that without them, {of_digest:.5} of \
         the digest",
        SIZES[size],
    );
}

fn main() {
    let words: Vec<String> = std::env::args().skip(1).collect();
    let limit = match words.as_slice() {
        [] => f64::INFINITY,
        [flag, number] if flag == "--at-most" => number.parse().expect("a number follows --at-most"),
        _ => panic!("usage: pages_bench [--at-most RATIO]"),
    };
    let (subjects, list) = (SIZES.map(Subject::of), signed_list());
    let runs: Vec<Run> = (0..RUNS).map(|_| run(&subjects, &list)).collect();
    println!("best of {RUNS} runs each; ratios are medians of those of one run");
    (0..SIZES.len()).for_each(|size| show(&runs, size));
    let (verified, verification) =
        (best(&runs, |run| run.verified), median(&runs, |run| run.verified / run.images[MIDDLE][HASHED]));
    println!(
        "one RSA verification at {KEY_SIZE} bytes: {verified:.1} µs, {verification:.5} of the digest of {} pages",
        SIZES[MIDDLE]
    );
    let all_kept = (0..SIZES.len()).all(|size| kept(&runs, size, limit)) && ranges_kept(&runs);
    if limit.is_finite() && !(all_kept && verification <= MOST_VERIFICATION) {
        eprintln!(
            "over {limit} of the digest's time before the digest, or over {MOST_WHOLE} in all, or a page over {MOST_EARLY_GROWTH} before the digest or \
             {MOST_WHOLE_GROWTH} in all of what it costs in the smallest image, or with reserved ranges over {MOST_RANGED_TO_EARLY} of the time without or \
             over {MOST_RANGED} of the digest's, or over {MOST_VERIFICATION} for one verification"
        );
        std::process::exit(1);
    }
}
