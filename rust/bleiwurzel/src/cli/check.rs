//! `bleiwurzel check`, and the parts that `capture make` takes too.

use super::args::{self, Args, RESERVED};
use super::files::Contents;
use super::{files, help, memory_map, misuse, module, platform, report, Misuse, Said, MISUSE};
use bleiwurzel::finding::{self, AtHand, Lengths};
use bleiwurzel::{capture, Parts, Platform, MOST_HEAP, MOST_PAGES, MOST_STM, MOST_WINDOW, RECORD_LENGTH};
use std::ffi::OsString;

const HELP: &str = "bleiwurzel check";

/// The flag of the policy record, where it is read.
pub const RECORD: &str = "--policy-record";
pub const PARTS: [&str; 4] = ["--window", "--heap", "--sinit", RECORD];
/// The flag of the part that there may be or not.
pub const STM: &str = "--stm";

/// The flags of the parts and of the platform, and these.
pub fn flags(more: &[&'static str]) -> Vec<&'static str> {
    let numbers = platform::KEYS.iter().map(|(_, flag, _)| *flag);
    let platform = ["--platform"].into_iter().chain(numbers).chain([RESERVED, memory_map::FLAG]);
    PARTS.iter().copied().chain([STM]).chain(platform).chain(more.iter().copied()).collect()
}

/// The parts as files.
pub struct Loaded {
    window: Contents,
    heap: Contents,
    sinit: Contents,
    record: Contents,
    stm: Contents,
}

impl Loaded {
    pub fn parts(&self) -> Parts<'_> {
        Parts {
            window: &self.window.bytes,
            heap: &self.heap.bytes,
            sinit: &self.sinit.bytes,
            record: &self.record.bytes,
            stm: &self.stm.bytes,
        }
    }

    /// Whether a part goes on behind what was read of it.
    pub fn more(&self) -> bool {
        [&self.window, &self.heap, &self.sinit, &self.record, &self.stm].iter().any(|part| part.length.more)
    }

    fn lengths(&self) -> Lengths {
        Lengths {
            window: self.window.length,
            heap: self.heap.length,
            sinit: self.sinit.length,
            record: self.record.length,
            stm: self.stm.length,
        }
    }
}

/// Reads the parts, each at most up to its limit and one byte more; `sinit` reads the SINIT module. An STM image that is not given is empty.
pub fn load(args: &Args, help: &'static str, limits: [u64; 4], sinit: files::Reader) -> Result<Loaded, Misuse> {
    let missing = args.missing(&PARTS);
    if !missing.is_empty() {
        return misuse(help, format!("parts are missing: {}. Each takes a file", missing.join(", ")));
    }
    let path = |i: usize| args.value(PARTS[i]).unwrap_or_default();
    Ok(Loaded {
        window: files::read(path(0), limits[0], "the memory window", help)?,
        heap: files::read(path(1), limits[1], "the TXT heap", help)?,
        sinit: sinit(path(2), limits[2], "the SINIT module", help)?,
        record: files::read(path(3), limits[3], "the policy record", help)?,
        stm: match args.value(STM) {
            Some(path) => files::read(path, MOST_STM as u64, "the STM image", help)?,
            None => Contents::default(),
        },
    })
}

fn limits(platform: &Platform) -> [u64; 4] {
    [MOST_WINDOW as u64, MOST_HEAP as u64, module::most(platform), RECORD_LENGTH as u64]
}

pub fn run(words: Vec<OsString>) -> Result<Said, Misuse> {
    let args = args::parse(words, HELP, &flags(&["--capture"]), &["--json"])?;
    if args.has("--help") {
        // Help is no permission, so its status is not 0.
        return Ok(Said { text: help::CHECK.to_string(), status: MISUSE });
    }
    args.no_words("--capture")?;
    if args.value("--capture").is_some() {
        return of_capture(&args);
    }
    let mut platform = platform::read(&args, HELP)?;
    let loaded = load(&args, HELP, limits(&platform), module::read)?;
    memory_map::reserve(&args, loaded.parts().window, &mut platform, HELP)?;
    Ok(of_parts(&loaded, &platform, args.has("--json")))
}

fn of_parts(loaded: &Loaded, platform: &Platform, json: bool) -> Said {
    let parts = loaded.parts();
    let mut pages = vec![0; MOST_PAGES];
    let (answer, digest) = bleiwurzel::answer_measured(&parts, platform, &mut pages);
    let reserved = Some(platform.reserved.as_slice().len());
    match answer.result() {
        Ok(permission) => report::permitted(&permission, &pages, reserved, json),
        Err(refusal) => {
            // Before 29 the image is not hashed, and no finding asks for its digest.
            let at_hand = AtHand { lengths: loaded.lengths(), digest: Some(digest) };
            let found = finding::find_with(refusal, &parts, &at_hand, platform, pages.len());
            report::not_permitted(refusal, found.as_ref(), reserved, HELP, json)
        }
    }
}

fn of_capture(args: &Args) -> Result<Said, Misuse> {
    let path = args.value("--capture").unwrap_or_default();
    if args.value(STM).is_some() {
        let why = "a capture is checked without an STM image";
        return misuse(HELP, format!("{why}; leave out {STM}, or leave out --capture and give the parts themselves"));
    }
    if let Some(other) = flags(&[]).iter().find(|flag| args.value(flag).is_some()) {
        return misuse(HELP, format!("--capture has all parts and the platform in one file; leave out {other}"));
    }
    let file = files::read(path, capture::MOST as u64, "the capture", HELP)?;
    let mut pages = vec![0; capture::PLACES];
    let json = args.has("--json");
    let reserved = capture::split(&file.bytes).ok().map(|(_, platform)| platform.reserved.as_slice().len());
    Ok(match bleiwurzel::check_capture(&file.bytes, &mut pages) {
        Ok(permission) => report::permitted(&permission, &pages, reserved, json),
        Err(refusal) => {
            let found = finding::find_in_capture(refusal, &file.bytes, pages.len()).map(|found| file.or_more(found));
            report::not_permitted(refusal, found.as_ref(), reserved, HELP, json)
        }
    })
}
