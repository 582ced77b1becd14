//! The texts of the refusals: the page, the C header and the crate say the same.

mod common;
#[path = "common/tool.rs"]
mod tool;

use bleiwurzel::refusals::{markdown, text, Text, TEXTS};
use bleiwurzel::Refusal;
use common::top;
use std::collections::HashSet;
use std::path::Path;
use tool::run;

fn read(path: &str) -> String {
    std::fs::read_to_string(top().join(path)).unwrap_or_else(|error| panic!("{path}: {error}"))
}

#[test]
fn every_number_has_its_text() {
    let numbers: Vec<u32> = TEXTS.iter().map(|text| text.number).collect();
    assert_eq!(numbers, (1..=33).collect::<Vec<u32>>());
    for entry in &TEXTS {
        let number = entry.number;
        assert!(
            entry.meaning.ends_with('.') && !entry.meaning[..entry.meaning.len() - 1].contains(". "),
            "{number}: one sentence"
        );
        assert!(!entry.rule.is_empty() && !entry.name.is_empty(), "{number}");
        for points in [entry.causes, entry.technician, entry.builder] {
            assert!(!points.is_empty() && points.iter().all(|point| point.ends_with('.')), "{number}");
        }
        let refusal = Refusal { number, place: 36 };
        assert_eq!(refusal.meaning(), entry.meaning);
        let line = if number == 27 { "refused 27 at 36".to_string() } else { format!("refused {number}") };
        assert_eq!((refusal.line(), refusal.to_string()), (line.clone(), format!("{line}: {}", entry.meaning)));
    }
    assert_eq!(Refusal { number: 27, place: 0 }.line(), "refused 27 at 0");
    assert!(text(0).is_none() && text(34).is_none());
}

#[test]
fn the_page_is_what_the_tool_prints() {
    assert!(
        read("docs/REFUSALS.md") == markdown(),
        "docs/REFUSALS.md differs; make it anew: bleiwurzel refusals > docs/REFUSALS.md"
    );
}

#[test]
fn the_page_says_what_tboot_writes() {
    let page = markdown();
    let section = page.split("\n## ").find(|section| section.starts_with("29 ")).expect("a section for 29");
    assert!(section.contains("tboot's tools write `custom` elements with type 0x13, not 3."));
}

/// What stands in backticks on the page and begins like this.
fn commands(page: &str, begin: &str) -> Vec<String> {
    let spans = page.lines().flat_map(|line| line.split('`').skip(1).step_by(2));
    spans.filter(|span| span.starts_with(begin)).map(str::to_string).collect()
}

/// A command line of tboot's tools is one that they take; `tests/tboot_commands.sh` runs each.
#[test]
fn commands_of_tboot_are_whole() {
    let page = markdown();
    let needed = [
        ("lcp2_crtpolelt", &["--create", "--type ", "--alg sha256", "--out "][..]),
        ("lcp2_crtpollist --create", &["--listver 0x20", "--out "]),
        ("lcp2_crtpollist --sign", &["--sigalg rsa ", "--pub ", "--priv ", "--rev ", "--out "]),
        ("lcp2_crtpol ", &["--create", "--type ", "--alg sha256", "--mask sha256", "--sign ", "--pol "]),
    ];
    for (tool, words) in needed {
        let commands = commands(&page, tool);
        assert!(!commands.is_empty(), "no command line of {tool}");
        for command in commands {
            words.iter().for_each(|word| assert!(command.contains(word), "'{command}' lacks {word}"));
        }
    }
    let does = |command: &String| [" --create ", " --sign "].iter().any(|action| command.contains(action));
    assert!(commands(&page, "lcp2_").iter().all(does), "a tool without what it is to do");
    let elements = commands(&page, "lcp2_crtpolelt");
    for kind in ["--type mle2 ", "--type stm "] {
        assert!(elements.iter().any(|command| command.contains(kind)), "no command line for an element with {kind}");
    }
}

/// A command line of this tool names a command and flags that there are.
#[test]
fn commands_of_the_tool_are_there() {
    let commands = commands(&markdown(), "bleiwurzel ");
    assert!(commands.len() > 3, "{commands:?}");
    for command in commands {
        let words: Vec<&str> =
            command.split(' ').skip(1).take_while(|word| word.chars().all(|c| c.is_ascii_lowercase())).collect();
        let help = run(&[&words[..], &["--help"]].concat());
        assert!(help.err.is_empty() && help.out.contains("Usage:"), "{command}: {}", help.err);
        for flag in command.split(' ').filter(|word| word.starts_with("--")) {
            assert!(help.out.contains(flag), "{command}: no flag {flag}");
        }
    }
}

/// All that is said of a number.
fn points(text: &'static Text) -> impl Iterator<Item = &'static str> {
    [text.meaning, text.rule].into_iter().chain([text.causes, text.technician, text.builder].into_iter().flatten().copied())
}

/// The sentences and the parts of sentences of a text; of a few words alone anything may be made.
fn sentences(text: &str) -> Vec<String> {
    let text = words(text).replace(';', ".");
    let all = text.split(". ").map(|sentence| sentence.trim_end_matches('.').to_string());
    all.filter(|sentence| sentence.split(' ').count() > 4).collect()
}

fn sources(folder: &Path, found: &mut Vec<(String, String)>) {
    for entry in std::fs::read_dir(folder).expect("a folder of sources") {
        let path = entry.expect("an entry").path();
        if path.is_dir() {
            sources(&path, found);
        } else {
            let source = std::fs::read_to_string(&path).expect("a source");
            found.push((path.to_string_lossy().into_owned(), words(&source.replace("\\\n", " "))));
        }
    }
}

fn words(text: &str) -> String {
    text.split_whitespace().collect::<Vec<_>>().join(" ")
}

#[test]
fn no_text_of_a_refusal_is_written_twice() {
    let mut seen = HashSet::new();
    TEXTS.iter().flat_map(points).for_each(|point| assert!(seen.insert(point), "twice: {point}"));
    let mut found = Vec::new();
    ["rust/bleiwurzel/src", "rust/inputs/src"].iter().for_each(|folder| sources(&top().join(folder), &mut found));
    assert!(found.len() > 20, "only {} sources", found.len());
    // What a macro puts together stands once in the sources, however often it is said.
    let sentences: HashSet<String> = seen.into_iter().flat_map(sentences).collect();
    let again = |sentence: &String| found.iter().map(|(_, source)| source.matches(sentence).count()).sum::<usize>() > 1;
    let again: Vec<String> = sentences.into_iter().filter(again).collect();
    assert!(again.is_empty(), "written more than once: {again:#?}");
}

/// For each of what keeps a signed list from permitting, the page says what is done at the rack and by the builder.
#[test]
fn what_is_said_of_signed_lists() {
    let about = text(29).expect("a text");
    for begin in ["If a counter is too low, ", "If a signature does not verify, "] {
        assert!(about.technician.iter().any(|point| point.starts_with(begin)), "nothing for the rack: {begin}");
    }
    for part in ["lcp2_crtpollist --sign ", "lcp2_crtpol --create --type list --rev COUNTER "] {
        assert!(about.builder.iter().any(|point| point.contains(part)), "nothing for the builder: {part}");
    }
}

/// The text of 31 sends to that of 29 for what has command lines there, which a list with an element of type 0x13 has not.
#[test]
fn what_is_said_of_other_lists() {
    let builder = |number| text(number).expect("a text").builder;
    let sent: Vec<String> = builder(31).iter().flat_map(|point| sentences(point)).collect();
    let at = sent.iter().position(|sentence| sentence == "the text of 29 has their command lines").expect("where they are");
    for part in ["STM", "signed"] {
        assert!(sent[at - 1].contains(part), "{part} is not in: {}", sent[at - 1]);
    }
    assert!(!sent[at - 1].contains("0x13"), "{}", sent[at - 1]);
    let lines = |part: &str| builder(29).iter().any(|point| point.contains(part));
    assert!(lines(" --type stm ") && lines("lcp2_crtpollist --sign ") && !lines(" --type custom "));
}

/// Where tboot's tools make an unsigned policy, the writer is named too, and what it is to be told of the old record.
#[test]
fn what_is_said_of_the_writer() {
    for number in [28, 29] {
        let mut points = text(number).expect("a text").builder.iter();
        let writer = points.find(|point| point.contains("`bleiwurzel policy write`")).expect("the writer");
        for part in ["unsigned", "`record`", "SINITMinVersion", "counters"] {
            assert!(writer.contains(part), "{number}: {part} is not in: {writer}");
        }
    }
}

/// A record that is made without `--rev` and `--minver` lifts what the old one revoked, so whoever makes one is told to give them.
#[test]
fn no_new_record_lifts_a_revocation_unsaid() {
    let makes = |point: &&&str| point.contains("`lcp2_crtpol --create --type list ") && !point.contains(" --rev COUNTER ");
    let points: Vec<&&str> = TEXTS.iter().flat_map(|text| text.builder).filter(makes).collect();
    assert_eq!(points.len(), 5, "{points:#?}");
    for point in points {
        for flag in ["`--rev`", "`--minver`"] {
            assert!(point.contains(flag), "{flag} is not said: {point}");
        }
    }
    for command in commands(&markdown(), "bleiwurzel policy show --as-description ") {
        assert!(command.contains(" --policy-record "), "the fields of the record are lost: {command}");
    }
    assert!(words(&run(&["policy", "write", "--help"]).out)
        .contains("without them the new one asks for 0, and what was revoked passes"));
}

#[test]
fn the_header_has_the_same_numbers_and_sentences() {
    let header = read("include/bleiwurzel.h");
    let words: Vec<&str> = header.split_whitespace().filter(|word| *word != "*").collect();
    let header = words.join(" ");
    for entry in &TEXTS {
        let name = entry.name.to_uppercase().replace(' ', "_");
        let comma = if entry.number == TEXTS.len() as u32 { "" } else { "," };
        let line = format!("/* {} */ BLEIWURZEL_{name} = {}{comma}", entry.meaning, entry.number);
        assert!(header.contains(&line), "the header lacks: {line}");
    }
}

/// What the header lends for reading is a pointer with its length behind it, or as many numbers as brackets say.
#[test]
fn lengths_of_what_is_lent() {
    let header = words(&read("include/bleiwurzel.h").replace("\n * ", "\n "));
    assert!(header.contains("; a length behind it, where there is one, counts what it points to."));
    let (mut counted, mut bracketed) = (0, 0);
    for lent in header.split("const uint").skip(1).filter_map(|declared| declared.split_once(' ')).map(|(_, lent)| lent) {
        let (name, behind) = lent.split_at(lent.find([',', ')', ' ']).expect("an end"));
        match name.strip_prefix('*') {
            Some(name) if behind.starts_with(&format!(", size_t {name}_length")) => counted += 1,
            Some(_) => panic!("no length behind {lent:.60}"),
            None => bracketed += usize::from(name.ends_with(']')),
        }
    }
    assert!(counted > 20 && bracketed == 3, "{counted} with a length, {bracketed} with brackets");
}
