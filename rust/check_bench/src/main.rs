//! Times the whole check of an image of two pages with the longest STM image. Where no list that could permit holds an STM element, against the
//! same check without an STM image; where lists do, against the digest of the STM image. Then the check with signed lists that name another image,
//! against the same lists unsigned: no signature of theirs is verified, which takes several times as long as all else. Last the reading of a policy
//! file of eight lists and 65,536 bytes, against its digest; and where it is refused at its last byte, against its reading where it is accepted:
//! to know the place takes no second reading. The two sides take turns in one process.
//!
//! With `--at-most R` it fails where the check takes more than R times as long as the other side. For that the median of the ratios of
//! neighbouring runs counts, which another program on the machine changes least.

use bleiwurzel::{answer, policy, sha256, Parts, Refusal, MOST_STM};
use samples::*;
use std::time::{Duration, Instant};

/// A check takes microseconds, the digest of an STM image tens of milliseconds.
const CHECKS: usize = 1000;
const DIGESTS: usize = 15;

fn timed(work: impl FnOnce()) -> Duration {
    let start = Instant::now();
    work();
    start.elapsed()
}

/// The median of the ratios of the first to the second, which take turns.
fn compare(name: &str, runs: usize, first: impl Fn(), second: impl Fn()) -> f64 {
    let mut best = [Duration::MAX; 2];
    let mut ratios = Vec::with_capacity(runs);
    for _ in 0..runs {
        let times = [timed(&first), timed(&second)];
        best = [best[0].min(times[0]), best[1].min(times[1])];
        ratios.push(times[0].as_secs_f64() / times[1].as_secs_f64());
    }
    ratios.sort_by(f64::total_cmp);
    let median = ratios[runs / 2];
    println!(
        "{name}: {:.1} µs against {:.1} µs, {:.3} of the time (best of {runs} runs each; median of neighbours {median:.3})",
        best[0].as_secs_f64() * 1e6,
        best[1].as_secs_f64() * 1e6,
        best[0].as_secs_f64() / best[1].as_secs_f64(),
    );
    median
}

/// An image under a policy, and the list that permits it.
struct Case {
    name: &'static str,
    image: Image,
    list: u32,
}

impl Case {
    fn check(&self, stm: &[u8]) {
        let parts = Parts { stm, ..self.image.parts() };
        let given = answer(&parts, &self.image.platform, &mut [0; 2]);
        assert_eq!((given.number, given.list), (0, self.list));
    }
}

/// A launch element that names the image.
fn naming(image: &Image) -> Vec<u8> {
    launch(0, &[sha256(&image.bytes())])
}

/// Policies under which no list that could permit holds an STM element.
fn not_asking() -> [Case; 3] {
    let any = image(&Shape::default());
    let (mle, other) = (naming(&any), stm(&[[1; 32]]));
    let plain = list(&[mle.clone()]);
    let hindered = [
        signed(&[mle.clone(), other.clone()], 256),
        list(&[mle, other.clone(), element(0x13, b"")]),
        list(&[launch(0, &[[1; 32]]), other]),
        plain.clone(),
    ];
    [
        Case { name: "LIST without STM elements", image: with_lists(&any, &[plain]), list: 0 },
        Case { name: "STM elements in lists that cannot permit", image: with_lists(&any, &hindered), list: 3 },
        Case { name: "ANY", image: any, list: 255 },
    ]
}

/// Eight lists with STM elements, of which the last names this STM image.
fn asking(stm_image: &[u8]) -> Case {
    let any = image(&Shape::default());
    let mut lists = vec![list(&[naming(&any), stm(&[[1; 32]])]); 7];
    lists.push(list(&[naming(&any), stm(&[sha256(stm_image)])]));
    Case { name: "eight lists with STM elements", image: with_lists(&any, &lists), list: 7 }
}

/// A list with a signature that is worth verifying, though it does not verify: the modulus is odd, and the signature is below it.
fn verifiable(elements: &[Vec<u8>]) -> Vec<u8> {
    let mut list = SignedList(signed(elements, 384));
    let (key, signature) = (list.key_range(), list.signature_range());
    list.0[key.start] |= 1;
    list.0[key.end - 1] |= 128;
    list.0[signature.end - 1] &= 127;
    list.0
}

/// Seven lists that name other images and an unsigned one that permits: the seven signed, and unsigned. Eleven digests make an unsigned list about
/// as long as a key, so that as much is hashed for PolicyHash on both sides.
fn naming_others() -> [Case; 2] {
    let any = image(&Shape::default());
    let others = [launch(0, &[[1; 32]; 11])];
    let case = |name, other| {
        let mut lists = vec![other; 7];
        lists.push(list(&[naming(&any)]));
        Case { name, image: with_lists(&any, &lists), list: 7 }
    };
    [case("seven signed lists that name other images", verifiable(&others)), case("the same unsigned", list(&others))]
}

/// A policy file of eight lists with launch elements of one digest each, and an element of type 3 that makes it as long as a policy file can be; and
/// the same with that element a byte shorter, and a byte behind the last list.
fn longest() -> [Vec<u8>; 2] {
    let elements = vec![launch(0, &[[1; 32]]); 163];
    let with = |filler: usize| {
        let last = [elements.clone(), vec![element(policy::CUSTOM, &vec![7; filler])]].concat();
        policy_file(&[vec![list(&elements); 7], vec![list(&last)]].concat()).0
    };
    let filler = policy::MOST - with(0).len();
    let (whole, mut shorter) = (with(filler), with(filler - 1));
    shorter.push(0);
    [whole, shorter]
}

/// The reading of a policy file, against its digest, and of one that is refused at its last byte.
fn compare_reading() -> f64 {
    let [file, refused] = longest();
    let at_the_end = Refusal { number: 27, place: policy::MOST as u32 - 1 };
    let read = || assert_eq!(policy::read(&file), Ok(8));
    let refuse = || assert_eq!(policy::read(&refused), Err(at_the_end));
    let digest = || {
        sha256(&file);
    };
    let reading = compare("reading an eight-list file of 65,536 bytes, and its digest", CHECKS, read, digest);
    reading.max(compare("refusing such a file at its last byte, and accepting it", CHECKS, refuse, read))
}

fn main() {
    let words: Vec<String> = std::env::args().skip(1).collect();
    let limit = match words.as_slice() {
        [] => f64::INFINITY,
        [flag, number] if flag == "--at-most" => number.parse().expect("a number follows --at-most"),
        _ => panic!("usage: check_bench [--at-most RATIO]"),
    };
    let stm_image: Vec<u8> = (0..MOST_STM).map(|i| (i * 7 + i / 251) as u8).collect();
    let mut greatest: f64 = 0.0;
    for case in not_asking() {
        let name = format!("{}, with and without an STM image", case.name);
        greatest = greatest.max(compare(&name, CHECKS, || case.check(&stm_image), || case.check(&[])));
    }
    let case = asking(&stm_image);
    let name = format!("{}, and the digest of the STM image", case.name);
    let digest = || {
        sha256(&stm_image);
    };
    greatest = greatest.max(compare(&name, DIGESTS, || case.check(&stm_image), digest));
    let [signed, unsigned] = naming_others();
    let name = format!("{}, and {}", signed.name, unsigned.name);
    greatest = greatest.max(compare(&name, CHECKS, || signed.check(&[]), || unsigned.check(&[])));
    greatest = greatest.max(compare_reading());
    if greatest > limit {
        eprintln!("more than {limit} times as long");
        std::process::exit(1);
    }
}
