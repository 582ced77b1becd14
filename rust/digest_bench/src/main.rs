//! Times the proved digest of 16 MiB against the plain one. The two take turns in one process, and the best of all runs counts, so that what
//! else the machine does hits both alike.
//!
//! With `--at-most R` it fails where the proved digest is slower than R times the plain one. For that the median of the ratios of
//! neighbouring runs counts, which another program on the machine changes least.

use std::time::{Duration, Instant};

const SIZE: usize = 16 << 20;
const RUNS: usize = 25;

fn timed(digest: impl Fn(&[u8]) -> [u8; 32], message: &[u8]) -> (Duration, [u8; 32]) {
    let start = Instant::now();
    let result = digest(message);
    (start.elapsed(), result)
}

fn plain(message: &[u8]) -> [u8; 32] {
    plain_sha256::digest_in_parts(message, 0)
}

fn megabytes_a_second(time: Duration) -> f64 {
    SIZE as f64 / 1e6 / time.as_secs_f64()
}

fn compare(message: &[u8]) -> f64 {
    let mut best = [Duration::MAX; 2];
    let mut ratios = Vec::with_capacity(RUNS);
    for _ in 0..RUNS {
        let (ours, our_digest) = timed(bleiwurzel::sha256, message);
        let (theirs, their_digest) = timed(plain, message);
        assert_eq!(our_digest, their_digest, "the two digests differ");
        best = [best[0].min(ours), best[1].min(theirs)];
        ratios.push(ours.as_secs_f64() / theirs.as_secs_f64());
    }
    ratios.sort_by(f64::total_cmp);
    let median = ratios[RUNS / 2];
    println!(
        "16 MiB: proved {:.1} MB/s, plain Rust {:.1} MB/s, time {:.3} of Rust's (best of {RUNS} runs each; median of neighbours {median:.3})",
        megabytes_a_second(best[0]),
        megabytes_a_second(best[1]),
        best[0].as_secs_f64() / best[1].as_secs_f64(),
    );
    median
}

fn main() {
    let words: Vec<String> = std::env::args().skip(1).collect();
    let limit = match words.as_slice() {
        [] => f64::INFINITY,
        [flag, number] if flag == "--at-most" => number.parse().expect("a number follows --at-most"),
        _ => panic!("usage: digest_bench [--at-most RATIO]"),
    };
    let message: Vec<u8> = (0..SIZE).map(|i| (i * 7 + i / 251) as u8).collect();
    if compare(&message) > limit {
        eprintln!("slower than {limit} times plain Rust");
        std::process::exit(1);
    }
}
