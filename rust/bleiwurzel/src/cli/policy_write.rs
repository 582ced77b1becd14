//! `bleiwurzel policy write`: a policy file and its record from a description.

use super::args::{self, Args, OUTPUT, RECORD};
use super::description::{self, Described, ElementLine};
use super::json::Json;
use super::save::{self, Output};
use super::{complain, files, help, misuse, names, report, say, say_aside, Misuse, Said, YES};
use bleiwurzel::finding::{first_in_record, Finding, Length};
use bleiwurzel::policy::{self, ElementDescription, Written};
use bleiwurzel::text::{bytes, digits};
use bleiwurzel::{Refusal, RECORD_FIELDS};
use std::ffi::{OsStr, OsString};
use std::fs;
use std::os::unix::ffi::OsStrExt;
use std::path::Path;

const HELP: &str = "bleiwurzel policy write";

/// The most bytes of a description. The longest of a policy file has under a third of them: 283,956, of a file of 65,528 bytes.
const MOST_TEXT: u64 = 1 << 20;

pub fn run(words: Vec<OsString>) -> Result<Said, Misuse> {
    let args = args::parse(words, HELP, &[OUTPUT, RECORD], &["--json"])?;
    if args.has("--help") {
        return Ok(Said { text: help::POLICY_WRITE.to_string(), status: YES });
    }
    let (file, record) = outputs(&args)?;
    let path = args.one_word("the description")?;
    let described = described(path)?;
    [(OUTPUT, file), (RECORD, record)].into_iter().try_for_each(|(flag, output)| not_the_description(flag, output, path))?;
    let written = match policy::write(&described.lists, &described.fields.bytes()) {
        Ok(written) => written,
        Err(refusal) => {
            let said = report::refused(refusal, finding(refusal, &described, path).as_ref(), HELP, args.has("--json"));
            return Ok(if on_standard([file, record]) { aside(said) } else { said });
        }
    };
    let outputs = [
        Output { flag: OUTPUT, path: file, bytes: &written.file },
        Output { flag: RECORD, path: record, bytes: &written.record },
    ];
    save::write_all(&outputs, HELP)?;
    warn_of(&written.record);
    // Said here: where it cannot be, the files are there all the same.
    say(&wrote(&outputs, &written, args.has("--json"))).or_else(|error| {
        let [file, record] = [file, record].map(names::shown);
        misuse(HELP, format!("'{file}' and '{record}' were written, but that cannot be said on standard output: {error}"))
    })?;
    Ok(Said { text: String::new(), status: YES })
}

/// Says of a record with which no image is permitted why that is so. It is written all the same, since its fields are the caller's.
fn warn_of(record: &[u8]) {
    if let Some(Finding { number, place, expected, found, .. }) = first_in_record(record) {
        let why = format!("{place}: expected {expected}, found {found}");
        complain(&format!(
            "the record was written, but with it bleiwurzel check permits no image: {why}; see bleiwurzel refusals {number}"
        ));
    }
}

/// The files that are to be written: the policy file, and its record.
fn outputs(args: &Args) -> Result<(&OsStr, &OsStr), Misuse> {
    let (file, record) = match (args.value(OUTPUT), args.value(RECORD)) {
        (Some(file), Some(record)) => (file, record),
        (None, _) => {
            return misuse(HELP, format!("{OUTPUT} is missing; it takes the name of the policy file, and may be written -o"))
        }
        (_, None) => return misuse(HELP, format!("{RECORD} is missing; it takes the name of the policy record")),
    };
    if file == record {
        return misuse(HELP, format!("{OUTPUT} and {RECORD} are both '{}'; give each a name of its own", names::shown(file)));
    }
    if args.has("--json") && on_standard([file, record]) {
        return misuse(HELP, "a file of - is written to standard output, where --json would write too; leave out one of them");
    }
    Ok((file, record))
}

/// Whether one of the files is to be written to standard output.
fn on_standard(outputs: [&OsStr; 2]) -> bool {
    outputs.contains(&OsStr::new(files::STANDARD))
}

/// Says it on standard error: standard output is for a file, and there is none.
fn aside(said: Said) -> Said {
    say_aside(&said.text);
    Said { text: String::new(), ..said }
}

/// Fails where a file that is to be written is the description, which nobody is to remove for it.
fn not_the_description(flag: &str, output: &OsStr, path: &OsStr) -> Result<(), Misuse> {
    let named = |path: &OsStr| if path == files::STANDARD { None } else { fs::canonicalize(path).ok() };
    match named(output) {
        Some(found) if named(path).as_ref() == Some(&found) => {
            misuse(HELP, format!("'{}' is the description; choose another name for {flag}", names::shown(output)))
        }
        _ => Ok(()),
    }
}

/// What the text of this file describes.
fn described(path: &OsStr) -> Result<Described, Misuse> {
    let file = files::read(path, MOST_TEXT, "the description", HELP)?;
    let name = files::shown(path);
    if file.length.more {
        return misuse(HELP, format!("{name} is no description: it has over {MOST_TEXT} bytes"));
    }
    let text = match String::from_utf8(file.bytes) {
        Ok(text) => text,
        Err(_) => return misuse(HELP, format!("{name} is no description: it is no text")),
    };
    description::read(&text, folder(path), HELP)
        .or_else(|(line, message)| misuse(HELP, format!("{}: {message}", place(path, line))))
}

/// The folder from which a description names files: its own, or the current one for standard input.
fn folder(path: &OsStr) -> &Path {
    let parent = Path::new(path).parent().filter(|parent| !parent.as_os_str().is_empty());
    // Never the empty path: behind it a file of the name - would be standard input.
    parent.unwrap_or_else(|| Path::new("."))
}

/// A line of the description, as compilers name one.
fn place(path: &OsStr, line: usize) -> String {
    if path == files::STANDARD {
        return format!("standard input:{line}");
    }
    format!("{}:{line}", names::shown(path))
}

/// What the refusal speaks of: the first line to which it can be led back.
fn finding(refusal: Refusal, described: &Described, path: &OsStr) -> Option<Finding> {
    let Fault { line, what, expected, found } = match refusal.number {
        31 => outside(described),
        32 => too_long(described),
        _ => None,
    }?;
    let place = line.map_or_else(|| files::shown(path), |line| place(path, line));
    Some(Finding { number: refusal.number, place: format!("{place}, {what}"), expected, found, notes: Vec::new(), field: None })
}

/// What is wrong in a description.
struct Fault {
    /// None where it is wrong as a whole.
    line: Option<usize>,
    what: String,
    expected: String,
    found: String,
}

/// The first line that is outside the grammar. All else that the grammar asks for, the text form cannot say otherwise.
fn outside(described: &Described) -> Option<Fault> {
    let (count, most) = (described.lists.len(), policy::MOST_LISTS as usize);
    if count == 0 {
        let expected = format!("1 to {most} lists, each begun by a line 'list'");
        return Some(Fault { line: None, what: "the lists".to_string(), expected, found: "none".to_string() });
    }
    described.lists.iter().zip(&described.lines).enumerate().find_map(|(i, (list, (line, lines)))| {
        if i >= most {
            let (expected, found) = (format!("at most {most} lists"), format!("{count} lists"));
            return Some(Fault { line: Some(*line), what: format!("list {i}"), expected, found });
        }
        let elements = list.elements.iter().zip(lines);
        other_version(i, list.version, *line).or_else(|| elements.filter_map(unknown_algorithm).next())
    })
}

/// The version of a list that is not of the grammar.
fn other_version(i: usize, version: u16, line: usize) -> Option<Fault> {
    if policy::LIST_VERSIONS.contains(&version) {
        return None;
    }
    let expected = policy::LIST_VERSIONS.map(|version| format!("{version:#06x}")).join(" or ");
    Some(Fault { line: Some(line), what: format!("the version of list {i}"), expected, found: format!("{version:#06x}") })
}

/// The HashAlg of a launch element that is not of the grammar.
fn unknown_algorithm((element, line): (&ElementDescription, &ElementLine)) -> Option<Fault> {
    let hash_alg = match (element.kind, element.body.get(2..4)) {
        (policy::LAUNCH, Some(field)) => u16::from_le_bytes([field[0], field[1]]),
        _ => return None,
    };
    if policy::algorithm(hash_alg).is_some() {
        return None;
    }
    let (what, expected) = ("the hash algorithm".to_string(), description::algorithm_names());
    Some(Fault { line: Some(line.number), what, expected, found: format!("{hash_alg:#06x}") })
}

/// The line with which the file grows too long.
fn too_long(described: &Described) -> Option<Fault> {
    let before = Length { bytes: policy::FIRST_LIST as u64, more: false };
    let mut up_to = before;
    let (line, here) = parts(described).find_map(|(line, part)| {
        up_to = sum(up_to, part);
        (up_to.bytes > policy::MOST as u64).then_some((line, up_to))
    })?;
    let all = parts(described).map(|(_, part)| part).fold(before, sum);
    Some(Fault {
        line: Some(line),
        what: "with which the file grows too long".to_string(),
        expected: format!("at most {} bytes in the policy file", policy::MOST),
        found: format!("{here} up to here, {all} in all"),
    })
}

/// The lines of lists and elements, each with what it puts into the file.
fn parts(described: &Described) -> impl Iterator<Item = (usize, Length)> + '_ {
    described.lists.iter().zip(&described.lines).flat_map(|(list, (line, lines))| {
        let head = Length { bytes: policy::LIST_HEAD as u64, more: false };
        let elements = list.elements.iter().zip(lines).map(|(element, line)| {
            let bytes = (policy::ELEMENT_HEAD + element.body.len()) as u64;
            (line.number, Length { bytes, more: line.more })
        });
        std::iter::once((*line, head)).chain(elements)
    })
}

fn sum(a: Length, b: Length) -> Length {
    Length { bytes: a.bytes + b.bytes, more: a.more || b.more }
}

/// What is said of files that were written; nothing where one of them went to standard output.
fn wrote(outputs: &[Output; 2], written: &Written, json: bool) -> String {
    let [file, record] = outputs;
    if on_standard([file.path, record.path]) {
        return String::new();
    }
    let hash = digits(&written.record[RECORD_FIELDS..]);
    if json {
        return Json::Object(vec![
            ("written", Json::from(file.path.to_string_lossy().as_ref())),
            ("bytes", Json::from(file.bytes.len())),
            ("record", Json::from(record.path.to_string_lossy().as_ref())),
            ("record_bytes", Json::from(record.bytes.len())),
            ("policy_hash", Json::from(hash)),
        ])
        .line();
    }
    let said = |output: &Output| format!("wrote {}, {}\n", names::shown(output.path), bytes(output.bytes.len() as u64));
    // A name that looks like a flag stands behind the end of the flags.
    let end = if file.path.as_bytes().starts_with(b"-") { "-- " } else { "" };
    let show = format!("bleiwurzel policy show {end}{}", names::quoted(file.path));
    format!("{}{}PolicyHash {hash}\nLook at it: {show}\n", said(file), said(record))
}
