//! `bleiwurzel policy`: the reading of a policy file, in the manner of tboot's `lcp2_crtpol --show`, or the description of one, from which it is
//! written again.

use super::json::{hex, Json};
use super::{args, check, description, dump, files, help, misuse, names, policy_write, report, Misuse, Said, YES};
use bleiwurzel::policy::{self, Body, Digests, Element, List, ListDescription, RecordFields, Signed};
use bleiwurzel::text::{bytes, digits};
use bleiwurzel::{finding, RECORD_FIELDS, RECORD_LENGTH};
use std::ffi::{OsStr, OsString};

const HELP: &str = "bleiwurzel policy";
const DESCRIPTION: &str = "--as-description";

pub fn run(mut words: Vec<OsString>) -> Result<Said, Misuse> {
    match words.first().and_then(|word| word.to_str()) {
        Some("write") => policy_write::run(words.split_off(1)),
        Some("show") => show(words.split_off(1)),
        _ => show(words),
    }
}

fn show(words: Vec<OsString>) -> Result<Said, Misuse> {
    let args = args::parse(words, HELP, &[check::RECORD], &[DESCRIPTION, "--json"])?;
    if args.has("--help") {
        return Ok(Said { text: help::POLICY.to_string(), status: YES });
    }
    let path = args.one_word("the policy file")?;
    let record = args.value(check::RECORD);
    if record.is_some() && !args.has(DESCRIPTION) {
        return misuse(HELP, format!("{} is for {DESCRIPTION}; give both or none", check::RECORD));
    }
    if path == files::STANDARD && record == Some(path) {
        return misuse(
            HELP,
            format!("the policy file and {} are both -, and standard input is one file; name the other", check::RECORD),
        );
    }
    let file = files::read(path, policy::MOST as u64, "the policy file", HELP)?;
    let json = args.has("--json");
    Ok(match policy::read(&file.bytes) {
        Ok(_) if args.has(DESCRIPTION) => Said { text: described(path, &file.bytes, record, json)?, status: YES },
        Ok(_) => Said { text: shown(&file.bytes, json), status: YES },
        Err(refusal) => {
            let mut found = finding::find_in_policy(refusal, &file.bytes).map(|found| file.or_more(found));
            if let Some(found) = &mut found {
                found.notes.extend(record_hint(&file.bytes));
            }
            let field = found.as_ref().and_then(|found| found.field.as_ref()).map(|field| &field.bytes);
            let lines = field.map(|field| dump::around(&file.bytes, &(field.start as usize..field.end as usize)));
            report::refused_in(refusal, found.as_ref(), &lines.unwrap_or_default(), HELP, json)
        }
    })
}

/// A policy file, and its record where one is given, as a description from which both are written again.
fn described(path: &OsStr, file: &[u8], record: Option<&OsStr>, json: bool) -> Result<String, Misuse> {
    let lists = policy::descriptions(file).or_else(|why| {
        let name = files::shown(path);
        misuse(
            HELP,
            format!("{name}: {why}; change such a file with the tools that made it, and see what it holds without {DESCRIPTION}"),
        )
    })?;
    let mut text = format!("# a policy file of {}; bleiwurzel policy write makes it of this\n", bytes(file.len() as u64));
    text.push_str(&match record {
        Some(path) => described_record(path, &lists)?,
        None => NO_RECORD.to_string(),
    });
    text.push_str(&description::lists_text(file));
    if json {
        return Ok(Json::Object(vec![
            ("answer", Json::from("accepted")),
            ("number", Json::from(0u32)),
            ("description", Json::from(text)),
        ])
        .line());
    }
    Ok(text)
}

/// What stands in a description for the record that is not given.
const NO_RECORD: &str = "# no record: its fields are left out and have their defaults, 0 for sinit-min-version and counters\n";

/// The lines of a record, which need not be that of the lists.
fn described_record(path: &OsStr, lists: &[ListDescription]) -> Result<String, Misuse> {
    let record = read_record(path)?;
    let fields = fields_of(&record);
    let lines = description::record_text(&RecordFields::of(&fields));
    let rewritten = policy::write(lists, &fields).map(|written| written.record);
    if rewritten == Ok(record) {
        return Ok(lines);
    }
    Ok(format!("# PolicyHash of {} is not this file's, and is written anew\n{lines}", names::shown(path)))
}

/// A policy record of the right length; no field of it is judged.
fn read_record(path: &OsStr) -> Result<[u8; RECORD_LENGTH], Misuse> {
    let record = files::read(path, RECORD_LENGTH as u64, "the policy record", HELP)?;
    <[u8; RECORD_LENGTH]>::try_from(record.bytes).or_else(|bytes| {
        let more = if record.length.more { " or more" } else { "" };
        let (name, length) = (files::shown(path), bytes.len());
        misuse(HELP, format!("{name} is no policy record: it has {length} bytes{more}, and a record has {RECORD_LENGTH}"))
    })
}

/// What stands in a record before its PolicyHash.
fn fields_of(record: &[u8; RECORD_LENGTH]) -> [u8; RECORD_FIELDS] {
    let mut fields = [0; RECORD_FIELDS];
    fields.copy_from_slice(&record[..RECORD_FIELDS]);
    fields
}

/// What to do with a file that looks like a policy record.
fn record_hint(file: &[u8]) -> Option<String> {
    let record = file.len() == RECORD_LENGTH && file[1] == 3;
    record.then(|| {
        format!(
            "it looks like a policy record ({RECORD_LENGTH} bytes, version 3): hand it to bleiwurzel check as --policy-record"
        )
    })
}

fn shown(file: &[u8], json: bool) -> String {
    if json {
        let lists: Vec<Json> = policy::lists(file).map(|(list, elements)| list_json(file, &list, &elements)).collect();
        return Json::Object(vec![
            ("answer", Json::from("accepted")),
            ("number", Json::from(0u32)),
            ("bytes", Json::from(file.len())),
            ("lists", Json::List(lists)),
        ])
        .line();
    }
    let all: Vec<_> = policy::lists(file).collect();
    let size = bytes(file.len() as u64);
    let mut text = format!("accepted, {size}\nfile_signature: {}\nnum_lists: {}\n", policy::MARK, all.len());
    for (i, (list, elements)) in all.iter().enumerate() {
        text.push_str(&list_text(file, i, list, elements));
    }
    text
}

/// Why a list cannot permit any image, where that is so; `verifies` says it of its signature, if it has one.
fn hindrance(verifies: Option<bool>, elements: &[Element]) -> Option<String> {
    let unverified = (verifies == Some(false)).then(|| "its signature does not verify".to_string());
    let all: Vec<String> = hindrance_by_elements(elements).into_iter().chain(unverified).collect();
    (!all.is_empty()).then(|| all.join("; "))
}

fn hindrance_by_elements(elements: &[Element]) -> Option<String> {
    let kinds = elements.iter().map(|element| (element.bytes.start as u64, element.kind));
    if let Some(hindrance) = policy::hindrance(kinds) {
        return Some(hindrance);
    }
    let sha256 = |digests: &Digests| digests.hash_alg == policy::SHA256 && digests.count > 0;
    let named = |kind: u32| elements.iter().filter(|element| element.kind == kind).filter_map(Element::digests).any(sha256);
    if !named(policy::LAUNCH) {
        return Some("no element of type 0x10 names a SHA-256 digest".to_string());
    }
    if needs_stm(elements) && !named(policy::STM) {
        return Some("it holds type 0x14, and no element of that type names a SHA-256 digest".to_string());
    }
    None
}

/// Whether a list with these elements permits only with an STM image that it names.
fn needs_stm(elements: &[Element]) -> bool {
    elements.iter().any(|element| element.kind == policy::STM)
}

/// The name of an element's type: tboot's, and Intel's for 2 and 3, which tboot's tools do not know.
fn kind(kind: u32) -> &'static str {
    match kind {
        0 => "mle",
        1 => "pconf",
        2 | 0x12 => "sbios",
        policy::CUSTOM | policy::TBOOT_CUSTOM => "custom",
        policy::LAUNCH => "mle2",
        0x11 => "pconf2",
        policy::STM => "stm",
        _ => "unknown",
    }
}

fn list_text(file: &[u8], i: usize, list: &List, elements: &[Element]) -> String {
    let algorithm = if list.signed.is_some() { "TPM_ALG_RSASSA (0x14)" } else { "TPM_ALG_NULL (0x10)" };
    let size = list.elements.len();
    let mut text = format!("list {i}: offset {:#x}, {}\n", list.bytes.start, bytes(list.bytes.len() as u64));
    text.push_str(&format!("    version: {:#x}\n    sig_alg: {algorithm}\n", list.version));
    text.push_str(&format!("    policy_elements_size: {size:#x} ({size})\n"));
    for (j, element) in elements.iter().enumerate() {
        text.push_str(&element_text(file, j, element));
    }
    let verifies = policy::verifies(file, list);
    if let Some(signed) = &list.signed {
        text.push_str(&signed_text(file, signed));
        text.push_str(&format!("    signature verifies: {}\n", if verifies == Some(true) { "yes" } else { "no" }));
    }
    text.push_str(&match hindrance(verifies, elements) {
        None => format!("    can permit: yes{}\n", needs(i, list, elements)),
        Some(why) => format!("    can permit: no, {why}\n"),
    });
    text
}

/// What a list that can permit needs besides the image's digest.
fn needs(i: usize, list: &List, elements: &[Element]) -> String {
    let stm = needs_stm(elements).then(|| ", with an STM image that it names".to_string());
    let counter = list.signed.as_ref().map(|signed| {
        format!(
            ", under a record that asks of list {i} a counter (record offset {}) of at most {}",
            policy::counter_at(i),
            signed.counter
        )
    });
    stm.into_iter().chain(counter).collect()
}

/// What stands behind the elements of a signed list.
fn signed_text(file: &[u8], signed: &Signed) -> String {
    let key = signed.key.len();
    let mut text = format!("    signature:\n        revocation_counter: {0:#x} ({0})\n", signed.counter);
    text.push_str(&format!("        pubkey_size: {key:#x} ({key})\n"));
    for (name, range) in [("pubkey_value", &signed.key), ("sig_block", &signed.signature)] {
        text.push_str(&format!("        {name}: offset {:#x}\n", range.start));
        for line in file[range.clone()].chunks(32) {
            text.push_str(&format!("            {}\n", digits(line)));
        }
    }
    text
}

fn element_text(file: &[u8], j: usize, element: &Element) -> String {
    let size = element.bytes.len();
    let mut text = format!("    policy_element[{j}]: offset {:#x}\n", element.bytes.start);
    text.push_str(&format!("        size: {size:#x} ({size})\n        type: '{}' ({:#x})\n", kind(element.kind), element.kind));
    text.push_str(&format!("        policy_elt_control: {:#010x}\n", element.control));
    if let Body::Launch(launch) = &element.body {
        text.push_str(&format!(
            "        sinit_min_version: {:#x}\n        reserved: {:#x}\n",
            launch.sinit_min_version, launch.reserved
        ));
    }
    match element.digests() {
        Some(named) => text.push_str(&digests_text(file, element, named)),
        None => {
            let body = body(file, element);
            text.push_str(&format!("        data: {}\n", bytes(body.len() as u64)));
            body.chunks(32).for_each(|line| text.push_str(&format!("            {}\n", digits(line))));
        }
    }
    text
}

/// The digests of an element.
fn digests_text(file: &[u8], element: &Element, named: &Digests) -> String {
    let name = policy::algorithm(named.hash_alg).map_or("unknown", |(_, name)| name);
    let mut text = format!("        hash_alg: TPM_ALG_{name} ({:#x})\n        num_hashes: {}\n", named.hash_alg, named.count);
    for (k, digest) in digests(file, element).enumerate() {
        text.push_str(&format!("        hashes[{k}]: {digest}\n"));
    }
    text
}

/// What follows an element's size, type and control.
fn body<'a>(file: &'a [u8], element: &Element) -> &'a [u8] {
    &file[element.bytes.start + policy::ELEMENT_HEAD..element.bytes.end]
}

fn digests<'a>(file: &'a [u8], element: &'a Element) -> impl Iterator<Item = String> + 'a {
    (0..).map_while(move |k| policy::digest(element, k)).map(|range| digits(&file[range]))
}

fn list_json(file: &[u8], list: &List, elements: &[Element]) -> Json {
    let verifies = policy::verifies(file, list);
    let signed = list.signed.as_ref().map_or(Json::Null, |signed| {
        Json::Object(vec![
            ("counter", Json::from(u32::from(signed.counter))),
            ("key_size", Json::from(signed.key.len())),
            ("key_offset", Json::from(signed.key.start)),
            ("key", Json::from(digits(&file[signed.key.clone()]))),
            ("signature_offset", Json::from(signed.signature.start)),
            ("signature", Json::from(digits(&file[signed.signature.clone()]))),
            ("verifies", Json::Bool(verifies == Some(true))),
        ])
    });
    let hindrance = hindrance(verifies, elements);
    Json::Object(vec![
        ("offset", Json::from(list.bytes.start)),
        ("size", Json::from(list.bytes.len())),
        ("version", hex(u64::from(list.version))),
        ("elements_size", Json::from(list.elements.len())),
        ("elements", Json::List(elements.iter().map(|element| element_json(file, element)).collect())),
        ("signed", signed),
        ("can_permit", Json::Bool(hindrance.is_none())),
        ("needs_stm", Json::Bool(needs_stm(elements))),
        ("hindrance", hindrance.map_or(Json::Null, Json::from)),
    ])
}

fn element_json(file: &[u8], element: &Element) -> Json {
    let mut members = vec![
        ("offset", Json::from(element.bytes.start)),
        ("size", Json::from(element.bytes.len())),
        ("type", hex(u64::from(element.kind))),
        ("control", hex(u64::from(element.control))),
    ];
    if let Body::Launch(launch) = &element.body {
        members.extend([
            ("sinit_min_version", Json::from(u32::from(launch.sinit_min_version))),
            ("reserved", Json::from(u32::from(launch.reserved))),
        ]);
    }
    match element.digests() {
        None => members.push(("data", Json::from(digits(body(file, element))))),
        Some(named) => members.extend([
            ("hash_alg", hex(u64::from(named.hash_alg))),
            ("hashes", Json::List(digests(file, element).map(Json::from).collect())),
        ]),
    }
    Json::Object(members)
}
