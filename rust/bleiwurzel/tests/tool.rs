//! The tool as one calls it: outputs, exit statuses, messages.

mod common;
#[path = "common/json.rs"]
mod json;
#[path = "common/tool.rs"]
mod tool;

use bleiwurzel::{answer_capture, capture, finding, policy, sha256};
use bleiwurzel::{Parts, Platform, MOST_HEAP, MOST_STM, MOST_WINDOW};
use common::*;
use json::is_json;
use std::time::Instant;
use tool::*;

#[test]
fn a_permitted_capture() {
    let ran = run(&["check", "--capture", &stored("00-any-example.cap")]);
    assert_eq!((ran.status, ran.out.as_str(), ran.err.as_str()), (OK, shown_in_readme("permitted").as_str(), ""));
    let ran = run(&["check", "--json", "--capture", &stored("00-any-example.cap")]);
    let expected = "{\"answer\": \"permitted\", \"number\": 0, \"pages\": 2, \"ranges\": [{\"first\": \"0x104000\", \"last\": \"0x105fff\", \
                    \"pages\": 2}], \"list\": null, \"digest\": \"b3f4315730049bde635935a7c5477b129df592e0a5a86dbd9886a57af0b1b399\", \
                    \"reserved\": 0}\n";
    assert_eq!((ran.status, ran.out.as_str()), (OK, expected));
}

#[test]
fn a_refused_capture() {
    let ran = run(&["check", "--capture", &stored("20-dpr-second-page-only-tables-safe.cap")]);
    assert_eq!(
        (ran.status, ran.out.as_str(), ran.err.as_str()),
        (REFUSED, shown_in_readme("refused 20, not protected").as_str(), "")
    );
}

#[test]
fn a_refused_policy_file() {
    let path = top().join("crates/policy_show/data/27-list-sigalg-0015.pol");
    let ran = run(&["policy", &path.to_string_lossy()]);
    let shown = shown_in_readme("refused 27 at 38, policy grammar");
    let begin = shown.strip_suffix("..\n").expect("a block that goes on");
    assert!(ran.status == REFUSED && ran.out.starts_with(begin), "{}", ran.out);
}

/// What README shows as output that begins with this line: an indented block, up to the next line that is not indented.
fn shown_in_readme(first: &str) -> String {
    let readme = std::fs::read_to_string(top().join("README.md")).expect("README.md");
    let block = readme.lines().skip_while(|line| line.strip_prefix("    ") != Some(first));
    let block = block.take_while(|line| line.is_empty() || line.starts_with("    "));
    let lines: Vec<&str> = block.map(|line| line.strip_prefix("    ").unwrap_or(line)).collect();
    format!("{}\n", lines.join("\n").trim_end())
}

#[test]
fn every_capture_by_the_tool() {
    let mut met = [0; 31];
    for (name, bytes) in captures() {
        let given = answer_capture(&bytes, &mut vec![0; capture::PLACES]);
        let number = given.number;
        met[number as usize] += 1;
        if met[number as usize] > 4 {
            continue;
        }
        let plain = run(&["check", "--capture", &stored(&name)]);
        let json = run(&["check", &format!("--capture={}", stored(&name)), "--json"]);
        assert!(is_json(&json.out) && json.out.lines().count() == 1, "{name}: {}", json.out);
        assert!(json.out.contains(&format!("\"number\": {number},")), "{name}: {}", json.out);
        assert_eq!((plain.status, json.status), if number == 0 { (OK, OK) } else { (REFUSED, REFUSED) }, "{name}");
        if number == 0 {
            assert!(plain.out.starts_with("permitted\n"), "{name}: {}", plain.out);
            continue;
        }
        let refusal = given.result().expect_err("a refusal");
        let found = finding::find_in_capture(refusal, &bytes, capture::PLACES).expect("a finding");
        assert!(plain.out.starts_with(&format!("{}, ", refusal.line())), "{name}: {}", plain.out);
        assert!(json.out.contains(&format!("\"number\": {number}, \"place\": {},", refusal.place)), "{name}: {}", json.out);
        for part in ["\n  where     ", "\n  expected  ", "\n  found     ", "\nWhat to do at the rack\n  - "] {
            assert!(plain.out.contains(part), "{name}: {}", plain.out);
        }
        let words = |text: &str| text.split_whitespace().collect::<Vec<_>>().join(" ");
        for text in [&found.place, &found.expected, &found.found] {
            assert!(words(&plain.out).contains(&words(text)), "{name}: '{text}' is not in {}", plain.out);
        }
        assert!(plain.out.contains(&format!("bleiwurzel refusals {number}\n")), "{name}");
    }
    let kinds = met.iter().filter(|count| **count > 0).count();
    assert!(kinds >= 25, "only {kinds} different answers");
}

#[test]
fn parts_as_files() {
    let folder = folder("parts_as_files");
    let image = image(&Shape { pages: 700, ..Shape::default() });
    let words = written(&folder, &image);
    let ran = run_with(&["check"], &words, &[]);
    assert_eq!(ran.status, OK, "{}{}", ran.out, ran.err);
    let last = image.listed[699] + 4095;
    assert!(ran.out.contains(&format!("{:#018x} to {last:#018x}  700 pages\n", image.listed[0])), "{}", ran.out);
    let ran = run_with(&["check"], &words, &["--dpr-size", "0"]);
    assert_eq!(ran.status, REFUSED);
    assert!(ran.out.starts_with("refused 20, not protected\n"), "a flag counts more than the file: {}", ran.out);
    let ran = run_with(&["check"], &words, &["--sinit-base=0x20000001"]);
    assert!(ran.out.starts_with("refused 6, module place\n"), "{}", ran.out);
}

#[test]
fn the_platform_by_flags_alone() {
    let folder = folder("the_platform_by_flags_alone");
    let words = written(&folder, &image(&Shape::default()));
    let flags = "--window-base 1048576 --heap-base 0x10000000 --sinit-base 0x20000000 --dpr-base 0x100000 --dpr-size 0x4000000 \
                 --acram-capacity 32768 --vendor 0x8086 --device 0xb002 --revision 5";
    let flags: Vec<&str> = flags.split_whitespace().collect();
    assert_eq!(run_with(&["check"], &words[..8], &flags).status, OK);
    let ran = run_with(&["check"], &words[..8], &flags[..16]);
    assert_eq!(ran.status, MISUSE);
    assert!(ran.err.contains("missing: --revision."), "{}", ran.err);
}

#[test]
fn files_over_their_limits() {
    let folder = folder("files_over_their_limits");
    let image = Image { stm: vec![1], ..image(&Shape::default()) };
    let words = written(&folder, &image);
    let restore = |name: &str, bytes: &[u8]| std::fs::write(folder.join(name), bytes).expect("a part is written");
    let cases: [(&str, &[u8], usize, u32); 5] = [
        ("window.bin", &image.window, MOST_WINDOW, 1),
        ("heap.bin", &image.heap, MOST_HEAP, 1),
        ("stm.bin", &image.stm, MOST_STM, 1),
        ("sinit.bin", &image.sinit, 0x2_0000, 6),
        ("record.bin", &image.record, 70, 23),
    ];
    for (name, bytes, limit, number) in cases {
        for length in [limit as u64 + 1, 1 << 36] {
            lengthen(&folder.join(name), length);
            let ran = run_with(&["check"], &words, &[]);
            assert_eq!(ran.status, REFUSED, "{name}: {}{}", ran.out, ran.err);
            assert!(ran.out.starts_with(&format!("refused {number}, ")), "{name}: {}", ran.out);
            assert!(ran.out.contains(&format!("{} bytes or more\n", limit + 1)), "{name}: {}", ran.out);
        }
        restore(name, bytes);
    }
    lengthen(&folder.join("window.bin"), MOST_WINDOW as u64);
    lengthen(&folder.join("stm.bin"), MOST_STM as u64);
    assert_eq!(run_with(&["check"], &words, &[]).status, OK);
    let ran = run_with(&["check"], &words[2..], &["--window", "/dev/zero"]);
    assert!(ran.out.starts_with("refused 1, limits\n"), "a file without end: {}", ran.out);
}

/// A permitted image under a LIST policy with an STM element.
fn with_stm() -> Image {
    let image = Image { stm: b"an STM image".to_vec(), ..image(&Shape::default()) };
    let elements = [launch(0, &[sha256(&image.bytes())]), stm(&[sha256(&image.stm)])];
    with_lists(&image, &[list(&elements)])
}

#[test]
fn an_stm_image() {
    let folder = folder("an_stm_image");
    let image = with_stm();
    let words = written(&folder, &image);
    assert_eq!(words[10], "--stm");
    let permitted = run_with(&["check"], &words, &[]);
    assert_eq!((permitted.status, permitted.err.as_str()), (OK, ""), "{}", permitted.out);
    assert!(permitted.out.contains("\n  list    0, the lowest that permits"), "{}", permitted.out);
    let without = &words[..10];
    let reason = "element 1 (file offset 0x5e) is an STM element (type 0x14), and no STM image was given";
    for more in [&[][..], &["--stm", "/dev/null"]] {
        let ran = run_with(&["check"], without, more);
        assert_eq!(ran.status, REFUSED, "{more:?}: {}", ran.out);
        let said = ran.out.split_whitespace().collect::<Vec<_>>().join(" ");
        assert!(said.starts_with("refused 29, no list") && said.contains(reason), "{more:?}: {said}");
        let json = run_with(&["check"], without, &[more, &["--json"]].concat());
        assert!(is_json(&json.out) && json.out.contains(&format!("\"notes\": [\"list 0: {reason}\"]")), "{}", json.out);
    }
    let other = run_with(&["check"], without, &["--stm", &words[1], "--json"]);
    assert!(other.status == REFUSED && other.out.contains(&hex(&sha256(&image.window))), "{}", other.out);
    let ran = run_with(&["check"], without, &["--stm", "/nowhere/stm.bin"]);
    assert!(ran.status == MISUSE && ran.err.contains("there is no file '/nowhere/stm.bin' for the STM image"), "{}", ran.err);
}

fn hex(bytes: &[u8]) -> String {
    bytes.iter().map(|byte| format!("{byte:02x}")).collect()
}

/// A capture has no place for an STM image, not for an empty file either: who names one expects that it counts.
#[test]
fn no_capture_with_an_stm_image() {
    let folder = folder("no_capture_with_an_stm_image");
    let words = written(&folder, &with_stm());
    let output = folder.join("made.cap").to_string_lossy().into_owned();
    for (words, more) in [(&words[..], &[][..]), (&words[..10], &["--stm", "/dev/null"])] {
        let ran = run_with(&["capture", "make"], words, &[&["--output", &output], more].concat());
        assert_eq!(ran.status, MISUSE);
        assert!(ran.err.contains("no place for an STM image") && ran.err.contains("bleiwurzel check --stm FILE"), "{}", ran.err);
    }
    assert!(!folder.join("made.cap").exists());
    assert_eq!(run_with(&["capture", "make"], &words[..10], &["--output", &output]).status, OK);
    let ran = run(&["check", "--capture", &output]);
    assert!(ran.status == REFUSED && ran.out.contains("no STM image was given"), "{}", ran.out);
    let ran = run(&["check", "--capture", &output, "--stm", &words[11]]);
    assert!(ran.status == MISUSE && ran.err.contains("leave out --stm"), "{}", ran.err);
}

/// What `policy` says of lists with STM elements: the digests, and whether a list can permit.
#[test]
fn stm_elements_in_policy_files() {
    let path = folder("stm_elements").join("policy.data").to_string_lossy().into_owned();
    let mle = || launch(0, &[[1; 32]]);
    let by_sha384 = element(0x14, &stm_body(0x000c, 1, &[3; 48]));
    let lists = [list(&[mle(), stm(&[[2; 32], [4; 32]])]), list(&[mle(), by_sha384]), list(&[mle()])];
    std::fs::write(&path, policy_file(&lists).0).expect("a policy file");
    let ran = run(&["policy", &path]);
    let element = format!(
        "    policy_element[1]: offset 0x5e\n        size: 0x50 (80)\n        type: 'stm' (0x14)\n        policy_elt_control: 0x00000000\n        \
         hash_alg: TPM_ALG_SHA256 (0xb)\n        num_hashes: 2\n        hashes[0]: {}\n        hashes[1]: {}\n",
        hex(&[2; 32]),
        hex(&[4; 32])
    );
    assert!(ran.status == OK && ran.out.contains(&element), "{}", ran.out);
    assert!(ran.out.contains("hash_alg: TPM_ALG_SHA384 (0xc)\n        num_hashes: 1\n"), "{}", ran.out);
    let can: Vec<&str> = ran.out.lines().filter_map(|line| line.strip_prefix("    can permit: ")).collect();
    let no = "no, it holds type 0x14, and no element of that type names a SHA-256 digest";
    assert_eq!(can, ["yes, with an STM image that it names", no, "yes"]);
    let json = run(&["policy", &path, "--json"]).out;
    assert!(is_json(&json), "{json}");
    let element = format!(
        "\"type\": \"0x14\", \"control\": \"0x0\", \"hash_alg\": \"0xb\", \"hashes\": [\"{}\", \"{}\"]}}",
        hex(&[2; 32]),
        hex(&[4; 32])
    );
    assert!(json.contains(&element), "{json}");
    for (can, needs) in [("true", "true"), ("false", "true"), ("true", "false")] {
        assert!(json.contains(&format!("\"can_permit\": {can}, \"needs_stm\": {needs}")), "{can}, {needs}: {json}");
    }
}

#[test]
fn captures_made_and_shown() {
    let folder = folder("captures_made_and_shown");
    let words = written(&folder, &image(&Shape::default()));
    let output = folder.join("made.cap").to_string_lossy().into_owned();
    let ran = run_with(&["capture", "make"], &words, &["--output", &output]);
    assert_eq!(ran.status, OK, "{}", ran.err);
    let parts = run_with(&["check"], &words, &[]);
    let whole = run(&["check", "--capture", &output]);
    assert_eq!((whole.status, whole.out), (OK, parts.out));
    let again = run_with(&["capture", "make"], &words, &["--output", &output]);
    assert_eq!(again.status, MISUSE);
    assert!(again.err.contains("is there already"), "{}", again.err);
    let shown = run(&["capture", "show", &output]);
    assert_eq!(shown.status, OK);
    let platform = folder.join("shown.txt");
    std::fs::write(&platform, &shown.out).expect("the shown platform");
    let ran = run_with(&["check"], &words[..8], &["--platform", &platform.to_string_lossy()]);
    assert_eq!(ran.status, OK, "what is shown is a platform file: {}", ran.err);
    let json = run(&["capture", "show", &output, "--json"]);
    assert!(is_json(&json.out) && json.out.contains("\"window_base\": \"0x100000\""), "{}", json.out);
    let parts = Parts { window: &[1], heap: &[2, 3], sinit: &[], record: &[], stm: &[] };
    let small = folder.join("small.cap");
    std::fs::write(&small, capture::make(&parts, &Platform::default()).expect("a capture")).expect("a small capture");
    let shown = run(&["capture", "show", &small.to_string_lossy()]).out;
    assert!(shown.contains(" 1 byte at file offset 75\n") && shown.contains(" 2 bytes at file offset 76\n"), "{shown}");
    let ran = run(&["capture", "show", &stored("30-74-bytes.cap")]);
    assert_eq!(ran.status, REFUSED);
    assert!(ran.out.starts_with("refused 30, capture\n") && ran.out.contains("  found     74 bytes\n"), "{}", ran.out);
}

#[test]
fn too_much_for_a_capture() {
    let folder = folder("too_much_for_a_capture");
    let words = written(&folder, &image(&Shape { pages: 100, ..Shape::default() }));
    let output = folder.join("made.cap").to_string_lossy().into_owned();
    let ran = run_with(&["capture", "make"], &words, &["--output", &output]);
    assert_eq!(ran.status, MISUSE);
    assert!(ran.err.contains("at most 65536 bytes") && ran.err.contains("bleiwurzel check --window"), "{}", ran.err);
    assert!(!folder.join("made.cap").exists());
}

#[test]
fn policy_files() {
    let data = top().join("crates/policy_show/data");
    let path = |name: &str| data.join(name).to_string_lossy().into_owned();
    let ran = run(&["policy", &path("plain-0x201.data")]);
    assert_eq!(ran.status, OK);
    let digest = "        hashes[0]: b042d7958aedb1d594d6d112d34f6602f4de7110e993ae7422923d7d171165dc\n";
    for part in ["accepted, 222 bytes\n", "num_lists: 1\n", "    version: 0x201\n", "        type: 'mle2' (0x10)\n", digest] {
        assert!(ran.out.contains(part), "{part} is not in {}", ran.out);
    }
    let ran = run(&["policy", &path("signed3072-0x200.data")]);
    assert!(ran.out.contains("pubkey_size: 0x180 (384)\n"), "{}", ran.out);
    let ran = run(&["policy", &path("27-list-sigalg-0015.pol")]);
    assert_eq!(ran.status, REFUSED);
    assert!(ran.out.contains("expected  0x0010 (none) or 0x0014 (RSASSA)\n  found     0x0015\n"), "{}", ran.out);
    for name in ["plain-0x201.data", "signed3072-0x200.data", "27-list-sigalg-0015.pol", "three-0x201.data"] {
        assert!(is_json(&run(&["policy", &path(name), "--json"]).out), "{name}");
    }
    let folder = folder("policy_files");
    let long = folder.join("long");
    std::fs::write(&long, vec![0; 65_537]).expect("a long file");
    let ran = run(&["policy", &long.to_string_lossy()]);
    assert!(ran.status == REFUSED && ran.out.starts_with("refused 26, policy place\n"), "{}", ran.out);
    let record = folder.join("record.bin");
    std::fs::write(&record, image(&Shape::default()).record).expect("a record");
    let hint = "it looks like a policy record (70 bytes, version 3): hand it to bleiwurzel check as --policy-record";
    let ran = run(&["policy", &record.to_string_lossy()]);
    let said = ran.out.split_whitespace().collect::<Vec<_>>().join(" ");
    assert!(ran.status == REFUSED && said.contains(hint), "{}", ran.out);
    let json = run(&["policy", "--json", &record.to_string_lossy()]).out;
    assert!(is_json(&json) && json.contains(&format!("\"notes\": [\"{hint}\"]")), "{json}");
}

/// Signed lists by tboot's tools, and the same with a bit of the signature, of the counter or of the elements changed.
#[test]
fn signatures_of_policy_files() {
    let folder = folder("signatures_of_policy_files");
    let path = folder.join("changed").to_string_lossy().into_owned();
    let can = "    can permit: yes, under a record that asks of list 1 a counter (record offset 8) of at most";
    let cannot = "    signature verifies: no\n    can permit: no, its signature does not verify\n";
    for name in ["signed2048-0x200.data", "signed2048-0x201.data", "signed3072-0x200.data", "signed3072-0x201.data"] {
        let file = std::fs::read(top().join("crates/policy_show/data").join(name)).expect("a policy file");
        let list = policy::list(&file, 1).expect("a second list");
        let shown = |changed: Option<usize>| {
            let mut file = file.clone();
            changed.iter().for_each(|at| file[*at] ^= 1);
            std::fs::write(&path, &file).expect("a policy file");
            [run(&["policy", &path]).out, run(&["policy", "--json", &path]).out]
        };
        let [text, json] = shown(None);
        assert!(text.ends_with(&format!("    signature verifies: yes\n{can} 5\n")), "{name}: {text}");
        assert!(json.contains("\"verifies\": true") && !json.contains("\"can_permit\": false"), "{name}: {json}");
        for at in [list.bytes.end - 1, list.elements.end, list.elements.end - 1] {
            let [text, json] = shown(Some(at));
            assert!(text.ends_with(cannot), "{name} with another byte {at}: {text}");
            let signed = json.find("\"verifies\": false").expect("a signature that does not verify");
            assert!(json[signed..].contains("\"can_permit\": false"), "{name} with another byte {at}: {json}");
        }
    }
}

/// Both what the elements and what the signature keep a list from.
#[test]
fn all_that_keeps_a_list_from_permitting() {
    let folder = folder("all_that_keeps_a_list_from_permitting");
    let path = folder.join("file").to_string_lossy().into_owned();
    let said = |elements: &[Vec<u8>]| {
        std::fs::write(&path, policy_file(&[signed(elements, 256)]).0).expect("a policy file");
        let out = run(&["policy", &path]).out;
        out.lines().last().expect("a last line").trim_start().to_string()
    };
    let unverified = "its signature does not verify";
    let unjudged = "element 0 (file offset 0x2c) has type 0x11 and only types 0x10, 3 and 0x14 are judged";
    assert_eq!(said(&[launch(0, &[[1; 32]])]), format!("can permit: no, {unverified}"));
    assert_eq!(said(&[element(0x11, b"")]), format!("can permit: no, {unjudged}; {unverified}"));
    assert_eq!(said(&[]), format!("can permit: no, no element of type 0x10 names a SHA-256 digest; {unverified}"));
}

/// Showing the most elements that a policy file can have takes far less time than asking for each by its number, which reads the file anew
/// for each; the two differ more than thirtyfold, so that another program on the machine does not matter.
#[test]
fn a_policy_file_is_shown_in_one_walk() {
    let elements = (policy::MOST - policy::FIRST_LIST - 8) / 12;
    let (file, _) = policy_file(&[list(&vec![element(3, b""); elements])]);
    let path = folder("in_one_walk").join("policy.data").to_string_lossy().into_owned();
    std::fs::write(&path, &file).expect("a policy file");
    let began = Instant::now();
    assert_eq!((0..).map_while(|j| policy::element(&file, 0, j)).count(), elements);
    let by_number = began.elapsed();
    for words in [&["policy", &path][..], &["policy", &path, "--json"]] {
        let shown = |_| {
            let began = Instant::now();
            assert_eq!(run(words).status, OK);
            began.elapsed()
        };
        let shown = (0..5).map(shown).min().expect("a time");
        assert!(shown < by_number / 3, "{words:?}: shown {shown:?}, by number {by_number:?}");
    }
}

/// The types that tboot's tools write have tboot's names.
#[test]
fn names_of_types() {
    let kinds = [(0x10, "mle2"), (0x11, "pconf2"), (0x12, "sbios"), (0x13, "custom"), (0x14, "stm")];
    let of = |(kind, _): &(u32, &str)| match kind {
        0x10 => launch(0, &[[1; 32]]),
        0x14 => stm(&[[1; 32]]),
        kind => element(*kind, b"x"),
    };
    let elements: Vec<Vec<u8>> = kinds.iter().map(of).collect();
    let path = folder("names_of_types").join("types").to_string_lossy().into_owned();
    std::fs::write(&path, policy_file(&[list(&elements), list(&elements[3..4])]).0).expect("a policy file");
    let ran = run(&["policy", &path]);
    for (kind, name) in kinds {
        assert!(ran.out.contains(&format!("type: '{name}' ({kind:#x})\n")), "{name} is not in {}", ran.out);
    }
    assert!(
        ran.out.contains("data: 1 byte\n") && ran.out.contains("has type 0x13, as tboot's tools write custom elements,"),
        "{}",
        ran.out
    );
}

#[test]
fn refusals() {
    assert_eq!(run(&["refusals"]).out, bleiwurzel::refusals::markdown());
    let ran = run(&["refusals", "29"]);
    assert!(ran.status == OK && ran.out.starts_with("29, no list\n") && ran.out.contains("0x13"), "{}", ran.out);
    assert!(is_json(&run(&["refusals", "--json"]).out) && is_json(&run(&["refusals", "7", "--json"]).out));
    for wrong in ["0", "34", "x"] {
        assert_eq!(run(&["refusals", wrong]).status, MISUSE, "{wrong}");
    }
}

#[test]
fn help_on_every_level() {
    let levels: [&[&str]; 8] = [
        &[],
        &["check"],
        &["policy"],
        &["policy", "write"],
        &["capture"],
        &["capture", "make"],
        &["capture", "show"],
        &["refusals"],
    ];
    assert_eq!(run(&["policy", "show", "--help"]).out, run(&["policy", "--help"]).out);
    for level in levels {
        let words = [level, &["--help"]].concat();
        let ran = run(&words);
        let status = if level == ["check"] { MISUSE } else { OK };
        assert_eq!((ran.status, ran.err.as_str()), (status, ""), "{words:?}");
        let name = ["bleiwurzel", &level.join(" ")].join(" ");
        assert!(ran.out.starts_with(name.trim_end()) && ran.out.contains("\nUsage:\n"), "{words:?}: {}", ran.out);
        let width = ran.out.lines().map(|line| line.chars().count()).max();
        assert!(width <= Some(80), "{words:?} is {width:?} wide");
    }
}

#[test]
fn misuse_says_what_to_do() {
    let example = stored("00-any-example.cap");
    let cases: [(&[&str], &str); 22] = [
        (&[], "a command is missing"),
        (&["chekc"], "there is no command 'chekc'"),
        (&["check"], "numbers of the platform are missing"),
        (&["check", &example], "stands alone"),
        (&["check", "--capture"], "a value is missing after --capture"),
        (&["check", "--capture", "/nowhere/x.cap"], "there is no file '/nowhere/x.cap'"),
        (&["check", "--capture", "/"], "cannot read '/'"),
        (&["check", "--capture", &example, "--heap", "h"], "leave out --heap"),
        (&["check", "--capture", &example, "--stm", "s"], "a capture is checked without an STM image"),
        (&["check", "--capture", &example, "--capture", &example], "given twice"),
        (&["check", "--windw", "x"], "has no flag --windw"),
        (&["check", "--json=1"], "--json takes no value"),
        (&["check", "--help=1"], "--help takes no value"),
        (&["policy", "-h="], "--help takes no value"),
        (&["capture", "show", "--help=x"], "--help takes no value"),
        (&["check", "--vendor", "0x18086"], "--vendor: '0x18086' does not fit into 16 bits"),
        (&["check", "--heap-base", "30000h"], "--heap-base: '30000h' is no number"),
        (&["policy"], "the policy file is missing"),
        (&["policy", "a", "b"], "there are 2 files"),
        (&["capture", "mak"], "make or show"),
        (&["capture", "make"], "--output is missing"),
        (&["capture", "make", "--stm", "s"], "a capture has no place for an STM image"),
    ];
    for (words, message) in cases {
        let ran = run(words);
        assert_eq!((ran.status, ran.out.as_str()), (MISUSE, ""), "{words:?}");
        assert!(ran.err.starts_with("bleiwurzel: ") && ran.err.contains(message), "{words:?}: {}", ran.err);
        assert!(ran.err.ends_with(" --help\n"), "{words:?}: {}", ran.err);
    }
}

#[test]
fn a_wrong_platform_file() {
    let folder = folder("a_wrong_platform_file");
    let words = written(&folder, &image(&Shape::default()));
    for (text, message) in [
        ("window_base = 1\nwindow-base = 1\n", "line 2: 'window_base' is given twice"),
        ("base = 1\n", "line 1: there is no key 'base'"),
        ("\nvendor 1\n", "line 2: 'vendor 1' is not of the form key = value"),
        ("vendor = 0x8086\n", "missing: --window-base, --heap-base"),
    ] {
        std::fs::write(folder.join("platform.txt"), text).expect("a platform file");
        let ran = run_with(&["check"], &words, &[]);
        assert_eq!(ran.status, MISUSE);
        assert!(ran.err.contains(message), "{text}: {}", ran.err);
    }
}
