//! The numbers of the rules stand in several languages. This holds the C header, launch-check and the Rust crate to the definitions in the Rattle
//! sources: `const NAME: TYPE = VALUE;` in crates/*/src and `name = VALUE` in crates/*/specs. What people read of the limits of an image's size is
//! held to the Rust crate.
//!
//! Where a definition is renamed or moves to another crate, the table below is what changes.

mod common;

use bleiwurzel::capture::Layout;
use bleiwurzel::finding::{Edition, EDITIONS};
use bleiwurzel::*;
use common::top;
use std::collections::BTreeMap;
use std::path::Path;

struct Number {
    /// Its value in the Rust crate.
    value: u64,
    /// Its definitions in the Rattle sources, in code and in specs: of one crate, or of all crates where none is named.
    rattle: &'static [&'static str],
    /// Its macros in include/bleiwurzel.h.
    macros: &'static [&'static str],
    /// What the comments there say of it.
    said: fn(u64) -> Vec<String>,
}

fn nothing(_: u64) -> Vec<String> {
    Vec::new()
}

/// What the header says of a kind of element, with the type as one digit or hexadecimal.
fn of_type(kind: &str, number: u64) -> Vec<String> {
    let number = if number < 10 { number.to_string() } else { format!("{number:#x}") };
    vec![format!("BLEIWURZEL_ELEMENT_{kind} /* type {number} */")]
}

const NUMBERS: &[Number] = &[
    Number {
        value: PAGE_SIZE,
        rattle: &["PAGE_SIZE", "page_size"],
        macros: &[],
        said: |n| vec![format!("The window base is no multiple of {n},"), format!("MLE Size is 0, no multiple of {n},")],
    },
    Number {
        value: HIGHEST_END,
        rattle: &["range::HIGHEST_END", "range::highest_end"],
        macros: &[],
        said: |n| vec![format!("over 2^{}.", n.trailing_zeros()), format!("the high one ends above 2^{}.", n.trailing_zeros())],
    },
    Number {
        value: MOST_WINDOW as u64,
        rattle: &["MOST_WINDOW", "most_window"],
        macros: &["BLEIWURZEL_MOST_WINDOW"],
        said: |n| vec![format!("the window is over {} MiB", n >> 20)],
    },
    Number {
        value: MOST_HEAP as u64,
        rattle: &["MOST_HEAP", "most_heap"],
        macros: &["BLEIWURZEL_MOST_HEAP"],
        said: |n| vec![format!("the heap is over {} MiB", n >> 20)],
    },
    Number {
        value: MOST_STM as u64,
        rattle: &["MOST_STM", "most_stm"],
        macros: &["BLEIWURZEL_MOST_STM"],
        said: |n| vec![format!("the STM image is over {} MiB", n >> 20)],
    },
    Number {
        value: MOST_RESERVED as u64,
        rattle: &["MOST_RESERVED", "most_reserved"],
        macros: &["BLEIWURZEL_MOST_RESERVED"],
        said: |n| {
            vec![
                format!("there are over {n} reserved ranges,"),
                format!("base and size in turn of {n} reserved ranges"),
                format!("a reserved_count over {n} is refused with 1"),
                format!("count of reserved ranges, at most {n},"),
            ]
        },
    },
    // base and size of each
    Number {
        value: 2 * MOST_RESERVED as u64,
        rattle: &["RESERVED_NUMBERS"],
        macros: &[],
        said: |n| vec![format!("reserved, always {n} numbers,"), format!("const uint64_t reserved[{n}],")],
    },
    Number { value: MOST_MODULE, rattle: &["HIGHEST_MODULE_END", "highest_module_end"], macros: &[], said: nothing },
    Number { value: MOST_CHIPSETS, rattle: &["sinit::MOST_ENTRIES", "sinit::most_entries"], macros: &[], said: nothing },
    Number {
        value: MOST_PAGES as u64,
        rattle: &["MOST_PAGES", "most_pages"],
        macros: &["BLEIWURZEL_MOST_PAGES"],
        said: |n| vec![format!("or over {n} pages")],
    },
    Number {
        value: MOST_TABLES as u64,
        rattle: &["MOST_TABLES", "most_tables"],
        macros: &["BLEIWURZEL_MOST_TABLES"],
        said: |n| vec![format!("The tables take a {}st page", n + 1)],
    },
    // what the programs for captures lend, a number of their own: docs/DECISIONS.md
    Number {
        value: capture::PLACES as u64,
        rattle: &["PLACES", "lent_places"],
        macros: &["BLEIWURZEL_CAPTURE_PLACES"],
        said: nothing,
    },
    Number {
        value: RECORD_LENGTH as u64,
        rattle: &["RECORD_SIZE", "record_size"],
        macros: &["BLEIWURZEL_RECORD_LENGTH"],
        said: |n| {
            vec![
                format!("does not have {n} bytes, major version 3"),
                format!("the policy record of {n} bytes"),
                format!("uint8_t record[{n}]"),
                format!("or {n} zeros on a refusal"),
            ]
        },
    },
    Number {
        value: RECORD_FIELDS as u64,
        rattle: &["decision::POLICY_HASH"],
        macros: &["BLEIWURZEL_RECORD_FIELDS"],
        said: |n| vec![format!("the first {n} bytes of the record"), format!("const uint8_t fields[{n}]")],
    },
    Number {
        value: policy::SHA256_PERMITTED as u64,
        rattle: &[],
        macros: &[],
        said: |n| {
            vec![
                format!("in LcpHashAlgMask the bit {n:#06x} (SHA-256)."),
                format!("without whose bit {n:#06x} it permits no image (23)."),
            ]
        },
    },
    // In the Rattle sources the bit has its number.
    Number {
        value: policy::SHA256_PERMITTED.trailing_zeros() as u64,
        rattle: &["SHA256_BIT", "sha256_bit"],
        macros: &[],
        said: nothing,
    },
    Number {
        value: policy::LEAST as u64,
        rattle: &["FIRST_LIST", "first_list"],
        macros: &["BLEIWURZEL_LEAST_POLICY"],
        said: |n| vec![format!("its size is not {n} to"), format!("it does not have {n} to")],
    },
    Number {
        value: policy::MOST as u64,
        rattle: &["LARGEST_FILE", "largest_file"],
        macros: &["BLEIWURZEL_MOST_POLICY"],
        said: |n| {
            vec![
                format!("its size is not 36 to {n} bytes"),
                format!("it does not have 36 to {n} bytes"),
                format!("would have over {n} bytes"),
            ]
        },
    },
    Number {
        value: policy::FIRST_LIST as u64,
        rattle: &["FIRST_LIST", "first_list"],
        macros: &["BLEIWURZEL_FIRST_LIST"],
        said: nothing,
    },
    Number {
        value: policy::MOST_LISTS,
        rattle: &["MOST_LISTS", "most_lists"],
        macros: &[],
        said: |n| vec![format!("how many lists there are, 1 to {n};")],
    },
    // what tests/written.rs takes for the largest size of an element and of a list's elements
    Number { value: u32::MAX as u64, rattle: &["policy_writer::LARGEST_SIZE"], macros: &[], said: nothing },
    Number {
        value: policy::LAUNCH as u64,
        rattle: &["LAUNCH_TYPE", "launch_type"],
        macros: &[],
        said: |n| of_type("LAUNCH = 1,", n),
    },
    Number {
        value: policy::CUSTOM as u64,
        rattle: &["CUSTOM_TYPE", "custom_type"],
        macros: &[],
        said: |n| of_type("CUSTOM = 2,", n),
    },
    Number { value: policy::STM as u64, rattle: &["STM_TYPE", "stm_type"], macros: &[], said: |n| of_type("STM = 4", n) },
    Number {
        value: NO_LIST as u64,
        rattle: &["NO_LIST", "no_list"],
        macros: &["BLEIWURZEL_NO_LIST_INDEX"],
        said: |n| {
            vec![format!("On a refusal pages is 0, list {n} and"), format!("{n} under ANY"), format!("counts gets 0 and {n},")]
        },
    },
    Number {
        value: capture::MOST as u64,
        rattle: &["capture::LARGEST", "capture::largest"],
        macros: &["BLEIWURZEL_MOST_CAPTURE"],
        said: |n| vec![format!("it has over {n} bytes"), format!("at most {n} in all")],
    },
    Number {
        value: Layout::PLAIN.length(0) as u64,
        rattle: &["capture::REVISION_END", "capture::revision_end"],
        macros: &[],
        said: nothing,
    },
];

/// The value of a number as Rattle, its specs and C write it: decimal or hexadecimal, with `^`, `<<`, `*` and `-`.
fn value(text: &str) -> Option<u64> {
    let text = text.trim().trim_matches(|c| c == '(' || c == ')');
    if let Some((a, b)) = text.rsplit_once(" - ") {
        return value(a)?.checked_sub(value(b)?);
    }
    if let Some((a, b)) = text.split_once(" << ") {
        return value(a)?.checked_shl(value(b)? as u32);
    }
    if let Some((a, b)) = text.split_once(" * ") {
        return value(a)?.checked_mul(value(b)?);
    }
    if let Some((a, b)) = text.split_once(" ^ ") {
        return value(a)?.checked_pow(value(b)? as u32);
    }
    let digits = text.trim_end_matches('u').replace('_', "");
    match digits.strip_prefix("0x") {
        Some(hex) => u64::from_str_radix(hex, 16).ok(),
        None => digits.parse().ok(),
    }
}

/// The definitions of numbers in a line of Rattle code or of specs.
fn definition(line: &str) -> Option<(&str, u64)> {
    let line = line.strip_prefix("pub(crate) ").or_else(|| line.strip_prefix("pub ")).unwrap_or(line);
    let (name, text) = match line.strip_prefix("const ") {
        Some(constant) => {
            let (name, rest) = constant.split_once(": ")?;
            (name, rest.split_once(" = ")?.1.strip_suffix(';')?)
        }
        None => line.split_once(" = ")?,
    };
    let named = name.chars().all(|c| c.is_ascii_alphanumeric() || c == '_');
    Some((name, value(text)?)).filter(|_| named)
}

fn files(folder: &Path, found: &mut Vec<std::path::PathBuf>) {
    for entry in std::fs::read_dir(folder).into_iter().flatten() {
        let path = entry.expect("an entry of a folder").path();
        if path.is_dir() {
            files(&path, found);
        } else {
            found.push(path);
        }
    }
}

/// All definitions of numbers in the Rattle sources: the crate and the value of each, by name.
fn definitions() -> BTreeMap<String, Vec<(String, u64)>> {
    let mut all: BTreeMap<String, Vec<(String, u64)>> = BTreeMap::new();
    for folder in std::fs::read_dir(top().join("crates")).expect("the crates") {
        let folder = folder.expect("a crate").path();
        let mut sources = Vec::new();
        ["src", "specs"].iter().for_each(|part| files(&folder.join(part), &mut sources));
        let name = folder.file_name().expect("a crate's name").to_string_lossy().into_owned();
        for source in sources {
            let text = std::fs::read_to_string(&source).expect("a source");
            for (defined, value) in text.lines().filter_map(definition) {
                all.entry(defined.to_string()).or_default().push((name.clone(), value));
            }
        }
    }
    all
}

/// The editions of a module's header: in the code each number of a row has a line, in the specification each row.
#[test]
fn rust_has_the_editions_of_the_rattle_sources() {
    let read = |path: &str| std::fs::read_to_string(top().join("crates/sinit").join(path)).expect("a source");
    let (code, spec) = (read("src/header.rt"), read("specs/Module.antt"));
    let columns: [(&str, fn(&Edition) -> u64); 4] = [
        ("version: ", |edition| edition.version),
        ("header_len: ", |edition| edition.header_len),
        ("key_size: ", |edition| edition.key_size),
        ("least_length: ", Edition::least_length),
    ];
    for (name, own) in columns {
        let number = |line: &str| value(line.trim().strip_prefix(name)?.strip_suffix(',')?);
        let found: Vec<u64> = code.lines().filter_map(number).collect();
        assert_eq!(found, EDITIONS.iter().map(own).collect::<Vec<u64>>(), "{name}");
    }
    let row = |line: &str| Some(line.split_once(" = edition ")?.1.split(' ').filter_map(value).collect());
    let found: Vec<Vec<u64>> = spec.lines().filter_map(row).collect();
    let own = EDITIONS.map(|edition| vec![edition.version, edition.header_len, edition.key_size]);
    assert_eq!(found, own);
}

/// What the texts say of the editions.
#[test]
fn the_texts_say_the_same_editions() {
    let [old, new] = EDITIONS;
    let least = format!("{} ({} with header version {})", old.least_length(), new.least_length(), new.name);
    let (module, version) = (format!("the SINIT module, of header version {} or {}", old.name, new.name), new.version);
    let said = [
        ("include/bleiwurzel.h", module.clone()),
        ("rust/bleiwurzel/src/cli/help.rs", module),
        ("README.md", format!("| SINIT module | {} to the ACRAM capacity,", least.replace(" (", " bytes ("))),
        ("docs/DIFFERENCES.md", format!("| {least}, the least multiple of 64 that holds header and information table |")),
        ("docs/DIFFERENCES.md", format!("HeaderLen of header version {} | {};", new.name, new.header_len)),
        ("docs/DIFFERENCES.md", format!("the version of header version {} | {version:#010x};", new.name)),
        ("docs/DIFFERENCES.md", format!("must be {} words ({} with header version {})", old.key_size, new.key_size, new.name)),
        (
            "docs/REFUSALS.md",
            format!(
                "at least {}, or {} where the header's version (32 bits at 8) is {version:#010x};",
                old.least_length(),
                new.least_length()
            ),
        ),
        (
            "docs/REFUSALS.md",
            format!(
                "version 8 (32) = {}, HeaderLen 4 (32) = {} and KeySize 120 (32) = {}, or version {version:#010x}, HeaderLen {} and KeySize {}.",
                old.version, old.header_len, old.key_size, new.header_len, new.key_size
            ),
        ),
        ("docs/REFUSALS.md", format!("another header edition than {} and {},", old.name, new.name)),
        ("docs/REFUSALS.md", format!("neither {} nor {version:#010x},", old.version)),
        ("docs/REFUSALS.md", format!("with header version {} write HeaderLen {},", new.name, new.header_len)),
        ("docs/REFUSALS.md", format!("and version {version:#010x}, the major number in bits 31:16.")),
    ];
    said.iter().for_each(|(file, said)| hold_said(file, said));
}

fn header() -> String {
    std::fs::read_to_string(top().join("include/bleiwurzel.h")).expect("the header")
}

#[test]
fn rust_has_the_numbers_of_the_rattle_sources() {
    let all = definitions();
    for number in NUMBERS {
        for name in number.rattle {
            let (of, name) = name.split_once("::").map_or((None, *name), |(of, name)| (Some(of), name));
            let found: Vec<&(String, u64)> =
                all.get(name).into_iter().flatten().filter(|(found, _)| of.map_or(true, |of| of == found)).collect();
            assert!(!found.is_empty(), "{name} is not defined in {}: the table has the old name", of.unwrap_or("any crate"));
            for (found, value) in found {
                assert_eq!(*value, number.value, "{name} of the crate {found}, and the Rust crate");
            }
        }
    }
}

#[test]
fn c_has_the_same_numbers() {
    let header = header();
    let define = |name: &str| {
        let line = header.lines().find_map(|line| line.strip_prefix("#define ")?.strip_prefix(name)?.strip_prefix(' '));
        line.and_then(value)
    };
    for number in NUMBERS {
        for name in number.macros {
            assert_eq!(define(name), Some(number.value), "{name}");
        }
    }
}

#[test]
fn launch_check_copies_a_whole_capture() {
    let script = std::fs::read_to_string(top().join("launch-check")).expect("the script");
    let most = script.lines().find_map(|line| line.strip_prefix("most=")).and_then(value);
    assert_eq!(most, Some(capture::MOST as u64));
}

#[test]
fn the_comments_of_the_header_say_the_same_numbers() {
    let words: Vec<String> = header().split_whitespace().filter(|word| *word != "*").map(str::to_string).collect();
    let text = words.join(" ");
    for number in NUMBERS {
        for said in (number.said)(number.value) {
            assert!(text.contains(&said), "the header does not say: {said}");
        }
    }
}

/// A number with a comma before each group of three digits.
fn grouped(number: usize) -> String {
    let digits = number.to_string();
    let group = |(i, digit): (usize, char)| if i > 0 && (digits.len() - i) % 3 == 0 { vec![',', digit] } else { vec![digit] };
    digits.chars().enumerate().flat_map(group).collect()
}

/// The limits of an image's size, as sentences and tables of several texts say them.
#[test]
fn the_texts_say_the_same_limits() {
    let (window, image) = (MOST_WINDOW >> 20, (MOST_PAGES * PAGE_SIZE as usize) >> 20);
    let (pages, places, tables) = (grouped(MOST_PAGES), grouped(capture::PLACES), MOST_TABLES);
    let said = [
        ("README.md", format!("of up to {pages} pages, is checked by its parts")),
        ("README.md", format!("| memory window | {window} MiB,")),
        ("README.md", format!("| image | {pages} pages ({image} MiB),")),
        ("README.md", format!("| page tables | {tables} pages in all,")),
        ("README.md", format!("| capture file | {} bytes, {places} places for pages |", grouped(capture::MOST))),
        ("docs/DIFFERENCES.md", format!("window at most {window} MiB,")),
        ("docs/DIFFERENCES.md", format!("at most {pages} pages |")),
        ("docs/DIFFERENCES.md", format!("at most {tables} table pages,")),
        ("docs/DIFFERENCES.md", format!("up to {MOST_RESERVED} of them")),
        ("docs/REFUSALS.md", format!("window at most {} bytes;", grouped(MOST_WINDOW))),
        ("docs/REFUSALS.md", format!("one window of at most {window} MiB holds all of them")),
        ("docs/REFUSALS.md", format!("in one window of at most {window} MiB, and")),
        ("docs/REFUSALS.md", format!("from {PAGE_SIZE} to {}.", grouped(MOST_PAGES * PAGE_SIZE as usize))),
        ("docs/REFUSALS.md", format!("The image is over {image} MiB.")),
        ("docs/REFUSALS.md", format!("at or under {pages} pages.")),
        (
            "docs/REFUSALS.md",
            format!(
                "MLE Size says more than {places} pages. `launch-check` and `bleiwurzel check --capture` lend {places} places"
            ),
        ),
        ("docs/REFUSALS.md", format!("it then lends {pages} places, the most that an image can need")),
        ("docs/REFUSALS.md", format!("lend {pages} places.")),
        ("docs/REFUSALS.md", format!("at most {tables} pages; the entry that names the {}st is refused.", tables + 1)),
        ("docs/REFUSALS.md", format!("- {pages} pages need {} page tables,", MOST_PAGES / 512)),
        ("rust/bleiwurzel/src/cli/help.rs", format!("at most {window} MiB:")),
        ("README.md", format!("up to {MOST_RESERVED} reserved ranges")),
        ("README.md", format!("| reserved ranges | {MOST_RESERVED}, each ending at or below 2^52")),
        ("docs/REFUSALS.md", format!("at most {MOST_RESERVED} reserved ranges;")),
        ("docs/REFUSALS.md", format!("and these are more than {MOST_RESERVED}.")),
        ("docs/REFUSALS.md", format!("In a program that has more than {MOST_RESERVED} reserved ranges,")),
        ("rust/bleiwurzel/src/cli/help.rs", format!("up to {MOST_RESERVED} ranges in all.")),
    ];
    said.iter().for_each(|(file, said)| hold_said(file, said));
}

/// The bit that LcpHashAlgMask must have, as sentences of several texts say it.
#[test]
fn the_texts_say_the_same_bit_of_the_mask() {
    let bit = policy::SHA256_PERMITTED;
    let said = [
        ("docs/REFUSALS.md", format!("LcpHashAlgMask 28 (16) has the bit {bit:#06x} (SHA-256), and its other bits are free.")),
        ("docs/REFUSALS.md", format!("leave out the key `lcp-hash-alg-mask`, which is {bit:#06x} then,")),
        ("rust/bleiwurzel/src/cli/help.rs", format!("lcp-hash-alg-mask={bit:#06x}\n")),
        ("rust/bleiwurzel/src/cli/help.rs", format!("the check wants the bit {bit}, SHA-256\n")),
        ("README.md", format!("with the bit {bit:#06x} in LcpHashAlgMask")),
    ];
    said.iter().for_each(|(file, said)| hold_said(file, said));
}

/// Where the fields of a capture stand in each version, as sentences of several texts say it.
#[test]
fn the_texts_say_the_same_layout_of_captures() {
    let version_2 = |ranges| Layout { version: 2, ranges };
    let (count, head, head_2) = (Layout::PLAIN.length(0), Layout::PLAIN.head(), version_2(0).head());
    let (first, range) = (version_2(0).length(0), version_2(1).head() - head_2);
    let said = [
        ("docs/REFUSALS.md", format!("four lengths (32 bits each from {count}),")),
        ("docs/REFUSALS.md", format!("{head} bytes plus the lengths is the file's size, at most {}.", grouped(capture::MOST))),
        ("docs/REFUSALS.md", format!("count of reserved ranges (16 bits at {count}, at most {MOST_RESERVED})")),
        ("docs/REFUSALS.md", format!("pairs of base and size (64 bits each from {first})")),
        (
            "docs/REFUSALS.md",
            format!("which begin at {first} + {range}·count; its head, all that is before the parts, has {head_2} + {range}·count bytes."),
        ),
        ("include/bleiwurzel.h", format!("{head} bytes before the parts, at most {} in all", capture::MOST)),
        ("include/bleiwurzel.h", format!("{head_2} bytes and {range} for each range before the parts")),
        ("rust/bleiwurzel/src/cli/help.rs", format!("without them version {}. {head} bytes\n", Layout::PLAIN.version)),
        ("rust/bleiwurzel/src/cli/help.rs", format!("reserved ranges take {} bytes more and {range}\nfor each.", head_2 - head)),
    ];
    said.iter().for_each(|(file, said)| hold_said(file, said));
}

fn hold_said(file: &str, said: &str) {
    let text = std::fs::read_to_string(top().join(file)).expect("a text");
    assert!(text.contains(said), "{file} does not say: {said}");
}

/// The sizes of what is written, as sentences of several texts say them.
#[test]
fn the_texts_say_the_same_sizes_of_policy_files() {
    let (lists, before, most) = (policy::MOST_LISTS, policy::FIRST_LIST, grouped(policy::MOST));
    let (list, element) = (policy::LIST_HEAD, policy::ELEMENT_HEAD);
    let digests = grouped((policy::MOST - before - list - element - 6) / 32);
    let said = [
        ("rust/bleiwurzel/src/cli/help.rs", format!("the policy record of {RECORD_LENGTH} bytes that is to be written")),
        ("rust/bleiwurzel/src/cli/help.rs", format!("begins a list; 1 to {lists} of them")),
        ("rust/bleiwurzel/src/cli/help.rs", format!("whole pages of {PAGE_SIZE} bytes")),
        ("docs/REFUSALS.md", format!("A description has 1 to {lists} lists,")),
        ("docs/REFUSALS.md", format!("{before} bytes, {list} more for each list, {element} more for each element")),
        ("docs/REFUSALS.md", format!("and all bodies are at most {most} together")),
        ("docs/REFUSALS.md", format!("one launch element alone has place for {digests} of SHA-256")),
        ("docs/REFUSALS.md", format!("Lend {most} bytes, `BLEIWURZEL_MOST_POLICY`")),
    ];
    said.iter().for_each(|(file, said)| hold_said(file, said));
}
