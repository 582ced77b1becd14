//! `bleiwurzel capture make` and `bleiwurzel capture show`.

use super::args::{self, Args, OUTPUT};
use super::json::{hex, Json};
use super::{check, files, help, memory_map, misuse, names, platform, report, save, say, Misuse, Said, YES};
use bleiwurzel::capture::{Layout, Unfit};
use bleiwurzel::{capture, finding, text, MemoryRange, Parts, Platform, Refusal};
use std::ffi::{OsStr, OsString};

const HELP: &str = "bleiwurzel capture";
const MAKE: &str = "bleiwurzel capture make";
const SHOW: &str = "bleiwurzel capture show";

pub fn run(mut words: Vec<OsString>) -> Result<Said, Misuse> {
    if words.is_empty() {
        return misuse(HELP, "say what to do with a capture: make or show");
    }
    let rest = words.split_off(1);
    match words[0].to_str() {
        Some("make") => make(rest),
        Some("show") => show(rest),
        Some("--help" | "-h") => Ok(Said { text: help::CAPTURE.to_string(), status: YES }),
        _ => misuse(HELP, format!("captures can be made and shown: make or show, not '{}'", names::shown(&words[0]))),
    }
}

fn make(words: Vec<OsString>) -> Result<Said, Misuse> {
    let args = args::parse(words, MAKE, &check::flags(&[OUTPUT]), &["--json"])?;
    if args.has("--help") {
        return Ok(Said { text: help::CAPTURE_MAKE.to_string(), status: YES });
    }
    args.no_words("--window")?;
    if args.value(check::STM).is_some() {
        return misuse(MAKE, unfit(Unfit::Stm, false));
    }
    let output = output(&args)?;
    let mut platform = platform::read(&args, MAKE)?;
    let loaded = check::load(&args, MAKE, [capture::MOST as u64; 4], files::read)?;
    memory_map::reserve(&args, loaded.parts().window, &mut platform, MAKE)?;
    let bytes = capture::make(&loaded.parts(), &platform).or_else(|why| misuse(MAKE, unfit(why, loaded.more())))?;
    save::write(output, &bytes, MAKE)?;
    // Said here: where it cannot be, the file is there all the same.
    say(&wrote(output, bytes.len(), args.has("--json"))).or_else(|error| {
        let name = names::shown(output);
        misuse(MAKE, format!("'{name}' was written, but that cannot be said on standard output: {error}"))
    })?;
    Ok(Said { text: String::new(), status: YES })
}

/// What is said where parts make no capture; `more` says that a part was not read to its end.
fn unfit(why: Unfit, more: bool) -> String {
    let (more, flag) = match why {
        Unfit::Long(_) => (if more { " or more" } else { "" }, "--window"),
        Unfit::Stm => ("", check::STM),
    };
    format!("{why}{more}. Check the parts themselves: bleiwurzel check {flag} FILE ..")
}

/// The file that is to be written.
fn output(args: &Args) -> Result<&OsStr, Misuse> {
    let output = match args.value(OUTPUT) {
        Some(output) => output,
        None => {
            return misuse(MAKE, "--output is missing; it takes the name of the capture file");
        }
    };
    if output == files::STANDARD && args.has("--json") {
        return misuse(
            MAKE,
            "--output - has the capture on standard output, where --json would write too; leave out one of them",
        );
    }
    Ok(output)
}

/// What is said of a file that was written; nothing where it went to standard output.
fn wrote(output: &OsStr, bytes: usize, json: bool) -> String {
    if output == files::STANDARD {
        return String::new();
    }
    if json {
        return Json::Object(vec![("written", Json::from(output.to_string_lossy().as_ref())), ("bytes", Json::from(bytes))])
            .line();
    }
    let check = format!("bleiwurzel check --capture {}", names::quoted(output));
    format!("wrote {}, {}\nCheck it: {check}\n", names::shown(output), text::bytes(bytes as u64))
}

fn show(words: Vec<OsString>) -> Result<Said, Misuse> {
    let args = args::parse(words, SHOW, &[], &["--json"])?;
    if args.has("--help") {
        return Ok(Said { text: help::CAPTURE_SHOW.to_string(), status: YES });
    }
    let path = args.one_word("the capture file")?;
    let file = files::read(path, capture::MOST as u64, "the capture", SHOW)?;
    let json = args.has("--json");
    Ok(match shown(&file.bytes, json) {
        Some(text) => Said { text, status: YES },
        None => {
            let refusal = Refusal { number: 30, place: 0 };
            let found = finding::find_in_capture(refusal, &file.bytes, 0).map(|found| file.or_more(found));
            report::refused(refusal, found.as_ref(), SHOW, json)
        }
    })
}

/// The name, file offset and length of each part; the first stands at `at`.
fn places(parts: &Parts, mut at: usize) -> Vec<(&'static str, usize, usize)> {
    let lengths = [parts.window, parts.heap, parts.sinit, parts.record].map(<[u8]>::len);
    let mut places = Vec::new();
    for (name, length) in capture::PARTS.iter().zip(lengths) {
        places.push((*name, at, length));
        at += length;
    }
    places
}

/// What a capture holds; none where the bytes are no capture.
fn shown(bytes: &[u8], json: bool) -> Option<String> {
    let (parts, platform) = capture::split(bytes).ok()?;
    let layout = Layout::read(bytes).ok()?;
    let places = places(&parts, layout.head());
    if json {
        return Some(shown_json(bytes, layout.version, &platform, &places).line());
    }
    let mut text = format!("# capture, version {}, {} bytes\n# platform, as --platform takes it\n", layout.version, bytes.len());
    text.push_str(&platform::text(&platform));
    text.push_str("# parts\n");
    for (name, at, length) in places {
        text.push_str(&format!("# {name:<13}  {:>11} at file offset {at}\n", text::bytes(length as u64)));
    }
    Some(text)
}

fn shown_json(bytes: &[u8], version: u16, platform: &Platform, places: &[(&'static str, usize, usize)]) -> Json {
    let numbers = platform::KEYS.iter().zip(platform::values(platform)).map(|((key, _, _), value)| (*key, hex(value)));
    let range = |range: &MemoryRange| Json::Object(vec![("base", hex(range.base)), ("size", hex(range.size))]);
    let reserved = Json::List(platform.reserved.as_slice().iter().map(range).collect());
    let part = |(name, at, length): &(&'static str, usize, usize)| {
        Json::Object(vec![("name", Json::from(*name)), ("offset", Json::from(*at)), ("length", Json::from(*length))])
    };
    Json::Object(vec![
        ("version", Json::from(u32::from(version))),
        ("bytes", Json::from(bytes.len())),
        ("platform", Json::Object(numbers.chain([(platform::RESERVED, reserved)]).collect())),
        ("parts", Json::List(places.iter().map(part).collect())),
    ])
}
