//! `policy write` and `policy show --as-description`: the text form there and back, what is said of a wrong line, and that both files are written
//! or none.

mod common;
#[path = "common/json.rs"]
mod json;
#[path = "common/tool.rs"]
mod tool;

use bleiwurzel::policy::{self, RecordFields};
use bleiwurzel::{MOST_PAGES, PAGE_SIZE, RECORD_FIELDS};
use common::*;
use json::is_json;
use std::fs;
use std::path::{Path, PathBuf};
use tool::*;

/// A folder with a description, and where its files are to be written.
struct Place {
    folder: PathBuf,
    text: String,
    file: String,
    record: String,
}

impl Place {
    fn new(name: &str) -> Self {
        let folder = folder(name);
        let path = |name: &str| folder.join(name).to_string_lossy().into_owned();
        Place { text: path("policy.txt"), file: path("policy.data"), record: path("policy.pol"), folder }
    }

    /// Writes the description, and has the tool write its files.
    fn write(&self, text: &str, more: &[&str]) -> Ran {
        fs::write(&self.text, text).expect("a description");
        run(&[&["policy", "write", "-o", &self.file, "--record", &self.record, &self.text], more].concat())
    }

    /// The two files, which go.
    fn taken(&self) -> (Vec<u8>, Vec<u8>) {
        let take = |path: &str| {
            let bytes = fs::read(path).expect("a file that was written");
            fs::remove_file(path).expect("it goes");
            bytes
        };
        (take(&self.file), take(&self.record))
    }

    fn names(&self) -> Vec<String> {
        names(&self.folder)
    }
}

fn names(folder: &Path) -> Vec<String> {
    let entries = fs::read_dir(folder).expect("a folder").map(|entry| entry.expect("an entry").file_name());
    let mut names: Vec<String> = entries.map(|name| name.to_string_lossy().into_owned()).collect();
    names.sort();
    names
}

/// The description that the help shows.
fn example() -> String {
    let help = run(&["policy", "write", "--help"]).out;
    let lines = help.lines().skip_while(|line| *line != "A description:").skip(1).take_while(|line| !line.is_empty());
    lines.map(|line| format!("{}\n", line.strip_prefix("  ").expect("an indented line"))).collect()
}

#[test]
fn the_example_of_the_help() {
    let place = Place::new("the_example_of_the_help");
    let image = vec![7; 3 * PAGE];
    fs::write(place.folder.join("image.bin"), &image).expect("an image");
    let ran = place.write(&example(), &[]);
    assert_eq!((ran.status, ran.err.as_str()), (OK, ""), "{}", ran.out);
    let shown = run(&["policy", "show", &place.file]);
    let digest = plain_sha256::digest_in_parts(&image, 0).map(|byte| format!("{byte:02x}")).concat();
    for part in ["num_lists: 2\n", &format!("hashes[0]: {digest}\n"), "type: 'custom' (0x3)\n", "            00112233\n"] {
        assert!(shown.status == OK && shown.out.contains(part), "{part} is not in {}", shown.out);
    }
    let (file, record) = place.taken();
    let fields = RecordFields { sinit_min_version: 1, ..RecordFields::default() };
    let (_, hash) = plainly_written(&policy::descriptions(&file).expect("a description"));
    assert_eq!(record, [&fields.bytes()[..], &hash].concat());
    assert!(ran.out.contains(&format!("PolicyHash {}\n", hash.map(|byte| format!("{byte:02x}")).concat())), "{}", ran.out);
}

/// A description as the tool prints it.
fn printed(file: &str, more: &[&str]) -> String {
    let ran = run(&[&["policy", "show", "--as-description", file], more].concat());
    assert_eq!((ran.status, ran.err.as_str()), (OK, ""), "{file}: {}", ran.out);
    ran.out
}

#[test]
fn every_stored_file_by_its_text() {
    let place = Place::new("every_stored_file_by_its_text");
    let path = |name: &str| place.folder.join(name).to_string_lossy().into_owned();
    let (old, old_record) = (path("old.data"), path("old.pol"));
    let mut with_record = 0;
    let files = described_files();
    for Stored { name, file, record, .. } in &files {
        fs::write(&old, file).expect("a policy file");
        let text = match record {
            None => printed(&old, &[]),
            Some((record, right)) => {
                with_record += 1;
                fs::write(&old_record, record).expect("a record");
                let text = printed(&old, &["--policy-record", &old_record]);
                assert_eq!(text.contains("is not this file's"), !right, "{name}: {text}");
                text
            }
        };
        assert_eq!(place.write(&text, &[]).status, OK, "{name}: {text}");
        let (again, record_again) = place.taken();
        assert!(again == *file, "{name}: other bytes by {text}");
        match record {
            Some((record, true)) => assert_eq!(record_again, *record, "{name}"),
            Some((record, false)) => assert_eq!(record_again[..RECORD_FIELDS], record[..RECORD_FIELDS], "{name}"),
            None => assert_eq!(record_again[..RECORD_FIELDS], RecordFields::default().bytes(), "{name}"),
        }
    }
    assert_eq!((files.len(), with_record), (30, 22), "how many files take part");
}

#[test]
fn the_files_of_tboot_by_their_text() {
    let place = Place::new("the_files_of_tboot_by_their_text");
    for name in ["plain-0x200", "plain-0x201"] {
        let stored =
            |folder: &str, ending: &str| top().join(folder).join(format!("{name}.{ending}")).to_string_lossy().into_owned();
        let (data, pol) = (stored("crates/policy_show/data", "data"), stored("rust/bleiwurzel/tests/data/tboot", "pol"));
        let text = printed(&data, &["--policy-record", &pol]);
        assert!(text.contains("\nrecord version=0x0302 hash-alg=sha256 type=list sinit-min-version=1 "), "{text}");
        assert_eq!(place.write(&text, &[]).status, OK, "{text}");
        assert_eq!(place.taken(), (fs::read(data).expect("a policy file"), fs::read(pol).expect("a record")), "{name}");
    }
}

/// Every byte of the record can be said, and no field is judged.
#[test]
fn every_field_of_the_record() {
    let place = Place::new("every_field_of_the_record");
    let text = "record version=0x0201 hash-alg=0x0403 type=5 sinit-min-version=0x06 control=0x1a191817\n\
                list # between\n\
                record counters=0x0807,0x0a09,0x0c0b,0x0e0d,0x100f,0x1211,0x1413,0x1615 max-sinit-min-version=27 reserved=28\n\
                record lcp-hash-alg-mask=0x1e1d lcp-sign-alg-mask=0x2221201f reserved2=0x26252423\n";
    assert_eq!(place.write(text, &[]).status, OK);
    let (file, record) = place.taken();
    assert_eq!(record[..RECORD_FIELDS], (1..=38).collect::<Vec<u8>>());
    let path = place.folder.join("record").to_string_lossy().into_owned();
    fs::write(&path, &record).expect("a record");
    fs::write(&place.file, &file).expect("a policy file");
    let text = printed(&place.file, &["--policy-record", &path]);
    fs::remove_file(&place.file).expect("the file goes");
    assert_eq!(place.write(&text, &[]).status, OK, "{text}");
    assert_eq!(place.taken(), (file, record));
    for (text, counters) in [("counters=7", [7, 0, 0, 0, 0, 0, 0, 0]), ("counters=1,0x2", [1, 2, 0, 0, 0, 0, 0, 0])] {
        assert_eq!(place.write(&format!("list\nrecord {text}\n"), &[]).status, OK);
        let fields = RecordFields { counters, ..RecordFields::default() };
        assert_eq!(place.taken().1[..RECORD_FIELDS], fields.bytes(), "{text}");
    }
    assert_eq!(place.write("record type=any\nrecord hash-alg=sm3-256\nlist\n", &[]).status, OK);
    let fields = RecordFields { policy_type: 1, hash_alg: 0x0012, ..RecordFields::default() };
    assert_eq!(place.taken().1[..RECORD_FIELDS], fields.bytes());
}

/// A record with which no image is permitted is written as it is asked for, and standard error says why. The check agrees.
#[test]
fn a_record_that_permits_nothing() {
    let place = Place::new("a_record_that_permits_nothing");
    let mut image = image(&Shape::default());
    let mask = |found: &str| format!("LcpHashAlgMask, record offset 28: expected the bit 0x0008 (SHA-256) set, found {found}");
    for (words, why) in [
        ("lcp-hash-alg-mask=0", Some(mask("0x0000"))),
        ("lcp-hash-alg-mask=0xfff7 type=any", Some(mask("0xfff7"))),
        ("hash-alg=sha384", Some("HashAlg, record offset 2: expected 0x000b (SHA256), found 0x000c".to_string())),
        ("type=2 lcp-hash-alg-mask=0", Some("type, record offset 4: expected 0 (LIST) or 1 (ANY), found 2".to_string())),
        ("version=0x0402", Some("version, record offset 0: expected high byte 3, as 0x0302, found 0x0402".to_string())),
        ("", None),
        ("lcp-hash-alg-mask=0xffff version=0x03ff type=any lcp-sign-alg-mask=0 control=0xffffffff", None),
    ] {
        let ran = place.write(&format!("record {words}\nlist\n"), &[]);
        let begin = "bleiwurzel: the record was written, but with it bleiwurzel check permits no image: ";
        let said = why.as_ref().map_or(String::new(), |why| format!("{begin}{why}; see bleiwurzel refusals 23\n"));
        assert_eq!((ran.status, &ran.err), (OK, &said), "{words}");
        assert!(ran.out.starts_with("wrote "), "{words}: {}", ran.out);
        image.record = place.taken().1;
        assert_eq!(asked(words, &image).number == 23, why.is_some(), "{words}");
    }
    fs::write(&place.text, "record lcp-hash-alg-mask=4\nlist\n").expect("a description");
    let made = run_on(b"", &["policy", "write", "-o", &place.file, "--record", "-", &place.text]);
    assert!(
        made.status.success()
            && made.stdout.len() == 70
            && made.stderr.ends_with(b", found 0x0004; see bleiwurzel refusals 23\n"),
        "to standard output"
    );
}

/// All that an element can say, with comments, blanks and line ends of another system between.
#[test]
fn every_field_of_an_element() {
    let place = Place::new("every_field_of_an_element");
    let digests = [20, 32, 48, 64, 32].map(|length| "5a".repeat(length));
    let names = ["sha1", "sha256", "sha384", "sha512", "sm3-256"];
    let mut text = "\r\n\t# nothing\n  list  version=512 #comment version=0x0300\r\n".to_string();
    for (name, digest) in names.iter().zip(&digests) {
        text.push_str(&format!(
            "launch\treserved=9 digest={digest} control=0xfffffffe hash-alg={name} sinit-min-version=8 digest={digest}\r\n"
        ));
    }
    text.push_str("launch hash-alg=0x000B\ncustom body= control=1\ncustom body=aBCd\n");
    assert_eq!(place.write(&text, &[]).status, OK);
    let (file, _) = place.taken();
    let lists = policy::descriptions(&file).expect("a description");
    assert_eq!((lists.len(), lists[0].version, lists[0].elements.len()), (1, 0x0200, 8));
    let launches =
        [(0x0004, 20), (0x000b, 32), (0x000c, 48), (0x000d, 64), (0x0012, 32)].map(|(hash_alg, length): (u16, usize)| {
            let body = [&[8, 9][..], &hash_alg.to_le_bytes(), &[2, 0], &vec![0x5a; 2 * length]].concat();
            (0x10, 0xffff_fffe, body)
        });
    let rest = [(0x10, 0, vec![0, 0, 0x0b, 0, 0, 0]), (3, 1, Vec::new()), (3, 0, vec![0xab, 0xcd])];
    let found = lists[0].elements.iter().map(|element| (element.kind, element.control, element.body.clone()));
    assert_eq!(found.collect::<Vec<_>>(), [&launches[..], &rest].concat());
}

#[test]
fn misuse_says_what_to_do() {
    let cases: [(&[&str], &str); 9] = [
        (&["policy", "show"], "the policy file is missing"),
        (&["policy", "x", "--policy-record", "y"], "--policy-record is for --as-description; give both or none"),
        (&["policy", "show", "--as-description", "-", "--policy-record", "-"], "are both -, and standard input is one file"),
        (&["policy", "write", "--record", "r", "d"], "--output is missing; it takes the name of the policy file"),
        (&["policy", "write", "-o", "f", "d"], "--record is missing; it takes the name of the policy record"),
        (&["policy", "write", "-o", "f", "--record", "f", "d"], "--output and --record are both 'f'"),
        (&["policy", "write", "-o", "-", "--record", "r", "--json", "d"], "where --json would write too"),
        (&["policy", "write", "-o", "f", "--record", "r"], "the description is missing"),
        (&["policy", "write", "-o", "f", "--record", "r", "/nowhere/d"], "there is no file '/nowhere/d' for the description"),
    ];
    for (words, message) in cases {
        let ran = run(words);
        assert_eq!((ran.status, ran.out.as_str()), (MISUSE, ""), "{words:?}");
        assert!(ran.err.starts_with("bleiwurzel: ") && ran.err.contains(message), "{words:?}: {}", ran.err);
        assert!(ran.err.ends_with(" --help\n"), "{words:?}: {}", ran.err);
    }
}

/// Descriptions with a wrong line, its number, and what is said of it.
const WRONG_LINES: &[(&str, usize, &str)] = &[
    ("lsit\n", 1, "no line begins with 'lsit'; lines begin with record, list, launch or custom"),
    ("# x\n\nlaunch digest=00\n", 3, "digest: '00' has 1 byte; one of sha256 has 32, which are 64 digits"),
    ("list\nlaunch\ncustom\n", 3, "body is missing; write body="),
    ("launch\n", 1, "an element stands before the first list; write a line 'list' before it"),
    ("list 0x0201\n", 1, "'0x0201' is not of the form key=value"),
    ("list\nlaunch digest=@my image.bin\n", 2, "'image.bin' is not of the form key=value; nothing here has blanks in it"),
    ("list control=0\n", 1, "a line 'list' has no key 'control'; its keys are version"),
    (
        "list\nlaunch hash=sha256\n",
        2,
        "a line 'launch' has no key 'hash'; its keys are control, sinit-min-version, reserved, hash-alg, digest",
    ),
    ("list version=1 version=1\n", 1, "'version' is given twice; give it once"),
    ("record type=any\nrecord type=any\n", 2, "'type' is given twice; give it once"),
    ("list version=65536\n", 1, "version: '65536' does not fit into 16 bits"),
    ("list version=201h\n", 1, "version: '201h' is no number"),
    ("record reserved=256\n", 1, "reserved: '256' does not fit into 8 bits"),
    ("record control=0x100000000\n", 1, "control: '0x100000000' does not fit into 32 bits"),
    ("record counters=1,2,3,4,5,6,7,8,9\n", 1, "counters: there are 9 counters; there is one for each of at most 8 lists"),
    ("record counters=1,,2\n", 1, "counters: '' is no number"),
    (
        "record type=lst\n",
        1,
        "type: 'lst' is no number; write decimal digits, or 0x and hexadecimal digits; or write list or any",
    ),
    ("list\nlaunch hash-alg=md5\n", 2, "or write sha1, sha256, sha384, sha512 or sm3-256"),
    ("list\nlaunch hash-alg=sha1 digest=@five.bin\n", 2, "of an image only sha256 is worked out; write the digits of its sha1"),
    ("list\nlaunch digest=@five.bin\n", 2, "'five.bin' has 5000 bytes, and an image is whole pages of 4096 bytes"),
    ("list\nlaunch digest=@empty.bin\n", 2, "'empty.bin' has 0 bytes, and an image is whole pages of 4096 bytes"),
    ("list\nlaunch digest=@none.bin\n", 2, "none.bin' for the image; look at the path"),
    ("list\ncustom body=@none.bin\n", 2, "none.bin' for the body; look at the path"),
    ("list\ncustom body=@-\n", 2, "/-' for the body; look at the path"),
    ("list\ncustom body=123\n", 2, "body: '123' is no string of bytes; write two hexadecimal digits for each byte, without 0x"),
    ("list\ncustom body=0x12\n", 2, "body: '0x12' is no string of bytes"),
    ("list\ncustom body=é\n", 2, "body: 'é' is no string of bytes"),
    ("list\nlaunch hash-alg=sha384 digest=00\n", 2, "one of sha384 has 48, which are 96 digits"),
];

/// What is said of a line that cannot be read: where it stands, what is wrong and what is accepted. Nothing is written.
#[test]
fn wrong_lines() {
    let place = Place::new("wrong_lines");
    fs::write(place.folder.join("five.bin"), vec![0; 5000]).expect("a file");
    fs::write(place.folder.join("empty.bin"), b"").expect("a file");
    let before = [place.names(), vec!["policy.txt".to_string()]].concat();
    let digest = "00".repeat(31);
    let cut = format!("list\nlaunch digest={digest} digest={digest}0000\n");
    let of_two = (cut.as_str(), 2, "has 31 bytes; one of sha256 has 32");
    for (text, line, message) in WRONG_LINES.iter().copied().chain([of_two]) {
        let ran = place.write(text, &[]);
        assert_eq!((ran.status, ran.out.as_str()), (MISUSE, ""), "{text}");
        let begin = format!("bleiwurzel: {}:{line}: ", place.text);
        assert!(ran.err.starts_with(&begin) && ran.err.contains(message), "{text}: {}", ran.err);
        assert_eq!(place.names().len(), before.len(), "{text}: {:?}", place.names());
    }
    let ran = place.write("list\nlaunch \u{1b}[2J=\u{1b}\n", &[]);
    assert!(ran.status == MISUSE && !ran.err.contains('\u{1b}'), "{:?}", ran.err);
    assert!(ran_bytes(&place, &[0xff, 0xfe]).err.contains("is no description: it is no text"));
    assert!(ran_bytes(&place, &vec![b'#'; (1 << 20) + 1]).err.contains("is no description: it has over 1048576 bytes"));
}

fn ran_bytes(place: &Place, bytes: &[u8]) -> Ran {
    fs::write(&place.text, bytes).expect("a description");
    run(&["policy", "write", "-o", &place.file, "--record", &place.record, &place.text])
}

/// A file that is longer than an image, and the largest image.
#[test]
fn long_images() {
    let place = Place::new("long_images");
    let image = place.folder.join("image.bin");
    fs::write(&image, b"").expect("a file");
    lengthen(&image, (MOST_PAGES as u64 + 1) * PAGE_SIZE);
    let ran = place.write("list\nlaunch digest=@image.bin\n", &[]);
    let most = "'image.bin' has over 67108864 bytes, and an image has at most 16384 pages of 4096";
    assert!(ran.status == MISUSE && ran.err.contains(most), "{}", ran.err);
    lengthen(&image, MOST_PAGES as u64 * PAGE_SIZE);
    assert_eq!(place.write("list\nlaunch digest=@image.bin\n", &[]).status, OK, "the largest image");
    let (file, _) = place.taken();
    assert_eq!(file[62..], plain_sha256::digest_in_parts(&vec![0; MOST_PAGES * PAGE], 0));
}

/// Of a body that is far longer than a policy file, not all is read, and what is said of the size says so. However many of them there are, the
/// library answers.
#[test]
fn long_bodies() {
    let place = Place::new("long_bodies");
    let body = place.folder.join("body.bin");
    fs::write(&body, b"").expect("a file");
    let one = "list\ncustom body=@body.bin\ncustom body=00\n".to_string();
    let many = format!("list\n{}", "custom body=@body.bin\n".repeat(2000));
    let behind = format!("list\ncustom body={}\nlaunch\n{}", "00".repeat(65_462), one);
    for (text, length, line, found) in [
        (&one, policy::MOST as u64, 2, "65592 bytes up to here, 65605 bytes in all"),
        (&one, policy::MOST as u64 + 1, 2, "65593 bytes or more up to here, 65606 bytes or more in all"),
        (&one, 9 << 30, 2, "65593 bytes or more up to here, 65606 bytes or more in all"),
        (&many, 9 << 30, 2, "65593 bytes or more up to here, 1074620 bytes or more in all"),
        (&behind, 1, 4, "65544 bytes up to here, 65570 bytes in all"),
        (&behind, 9 << 30, 4, "65544 bytes up to here, 131106 bytes or more in all"),
    ] {
        lengthen(&body, length);
        let ran = place.write(text, &[]);
        let words = ran.out.split_whitespace().collect::<Vec<_>>().join(" ");
        assert!(ran.status == REFUSED && words.starts_with("refused 32, "), "{length}: {}{}", ran.out, ran.err);
        assert!(words.contains(&format!("/policy.txt:{line}, with which ")), "{length}: {}", ran.out);
        assert!(words.contains(&format!(" found {found} ")), "{length}: {}", ran.out);
    }
}

/// The description of a policy file that takes the longest text for its size: launch elements without digests, with the longest words.
#[test]
fn the_longest_description() {
    let place = Place::new("the_longest_description");
    let element = [&[18, 0, 0, 0, 0x10, 0, 0, 0][..], &[0xff; 6], &[0x12, 0, 0, 0]].concat();
    let (file, _) = policy_file(&[list(&vec![element; (policy::MOST - 44) / 18])]);
    let path = place.folder.join("old.data").to_string_lossy().into_owned();
    fs::write(&path, &file).expect("a policy file");
    let text = printed(&path, &[]);
    assert_eq!((file.len(), text.len()), (65_528, 283_956), "src/cli/policy_write.rs says so beside its limit");
    assert_eq!(place.write(&text, &[]).status, OK);
    assert!(place.taken().0 == file);
    let help = run(&["policy", "write", "--help"]).out;
    assert!(help.contains("a text file of at most 1 MiB,"), "the limit of the text: {help}");
}

/// However long a word is, the line about it is not.
#[test]
fn long_words() {
    let place = Place::new("long_words");
    let long = "7".repeat(100_001);
    let name = "x".repeat(5000);
    for text in [
        format!("{long}\n"),
        format!("list {long}\n"),
        format!("list {long}=1\n"),
        format!("list version={long}\n"),
        format!("record type={long}\n"),
        format!("record counters=1,{long}\n"),
        format!("list\nlaunch hash-alg={long}\n"),
        format!("list\nlaunch digest={long}\n"),
        format!("list\nlaunch digest={long}7\n"),
        format!("list\nlaunch digest=@{name}\n"),
        format!("list\ncustom body={long}\n"),
        format!("list\ncustom body=@{name}\n"),
    ] {
        let ran = place.write(&text, &[]);
        let front = &text[..text.find("7777777").or(text.find("xxxxxxx")).expect("a long word")];
        assert_eq!((ran.status, ran.out.as_str()), (MISUSE, ""), "{front}");
        let line = ran.err.lines().next().expect("a line");
        assert!(line.contains("77..'") || line.contains("xx..'"), "{front}: {line:.500}");
        assert!(line.len() < place.text.len() + 350, "{front}: {} bytes", line.len());
    }
}

/// What some editors put before a text is no part of its first line.
#[test]
fn a_byte_order_mark() {
    let place = Place::new("a_byte_order_mark");
    assert_eq!(place.write("list\ncustom body=01\n", &[]).status, OK);
    let plain = place.taken();
    for text in ["\u{feff}list\ncustom body=01\n", "\u{feff}# x\nlist\ncustom body=01\n"] {
        let ran = place.write(text, &[]);
        assert_eq!(ran.status, OK, "{}", ran.err);
        assert_eq!(place.taken(), plain);
    }
    let ran = place.write("list\n\u{feff}list\n", &[]);
    assert!(ran.status == MISUSE && ran.err.contains("policy.txt:2: no line begins with '\\u{feff}list'"), "{}", ran.err);
}

/// Descriptions that the library refuses, the number, the line and what is said of it, what was expected and what was found.
const REFUSED_DESCRIPTIONS: &[(&str, u32, &str, &str, &str)] = &[
    ("record version=1\n", 31, "policy.txt', the lists", "1 to 8 lists, each begun by a line 'list'", "none"),
    ("list\nlist\nlist\nlist\nlist\nlist\nlist\nlist\nlist\n", 31, "policy.txt:9, list 8", "at most 8 lists", "9 lists"),
    ("list\n\nlist version=0x0202\n", 31, "policy.txt:3, the version of list 1", "0x0200 or 0x0201", "0x0202"),
    ("list version=0x01ff\n", 31, "policy.txt:1, the version of list 0", "0x0200 or 0x0201", "0x01ff"),
    (
        "list\ncustom body=\nlaunch hash-alg=10 digest=00\n",
        31,
        "policy.txt:3, the hash algorithm",
        "sha1, sha256, sha384, sha512 or sm3-256",
        "0x000a",
    ),
    (
        "list\ncustom body=@body.bin\nlist\ncustom body=@body.bin # here\nlaunch\n",
        32,
        "policy.txt:4, with which the file grows too long",
        "at most 65536 bytes in the policy file",
        "120076 bytes up to here, 120094 bytes in all",
    ),
];

/// What the library refuses has its number, and the line to which it can be led back. Nothing is written.
#[test]
fn refused_descriptions() {
    let place = Place::new("refused_descriptions");
    fs::write(place.folder.join("body.bin"), vec![0; 60_000]).expect("a body");
    for (text, number, line, expected, found) in REFUSED_DESCRIPTIONS {
        let ran = place.write(text, &[]);
        let json = place.write(text, &["--json"]);
        assert_eq!((ran.status, ran.err.as_str(), json.status), (REFUSED, "", REFUSED), "{text}");
        let words = ran.out.split_whitespace().collect::<Vec<_>>().join(" ");
        assert!(words.starts_with(&format!("refused {number}, policy ")), "{text}: {}", ran.out);
        assert!(words.contains(&format!("{line} expected {expected} found {found} ")), "{text}: {}", ran.out);
        assert!(ran.out.lines().all(|line| line.chars().count() <= 80 || line.contains('/')), "{}", ran.out);
        let part = format!("\"number\": {number}, \"place\": 0,");
        assert!(is_json(&json.out) && json.out.contains(&part) && json.out.contains(*line), "{text}: {}", json.out);
        assert_eq!(place.names(), ["body.bin", "policy.txt"], "{text}");
    }
    // A file of the most bytes, and one with a byte more.
    let body = |length: usize| format!("list\ncustom body={}\n", "00".repeat(length));
    assert_eq!(place.write(&body(policy::MOST - 56), &[]).status, OK);
    assert_eq!(place.taken().0.len(), policy::MOST);
    assert_eq!(place.write(&body(policy::MOST - 55), &[]).status, REFUSED);
}

/// Names of files count from the folder of the description, wherever the tool is called; of standard input from the current one.
#[test]
fn names_of_files_in_a_description() {
    let place = Place::new("names_of_files_in_a_description");
    let below = place.folder.join("below");
    fs::create_dir(&below).expect("a folder");
    fs::write(place.folder.join("-"), b"minus").expect("a file");
    fs::write(place.folder.join("a#b"), b"number").expect("a file");
    fs::write(below.join("-"), b"below").expect("a file");
    let text = format!("list\ncustom body=@-\ncustom body=@a#b\ncustom body=@below/-\ncustom body=@{}/-\n", below.display());
    fs::write(&place.text, &text).expect("a description");
    let bodies = [&b"minus"[..], b"number", b"below", b"below"];
    for (folder, description) in [(&place.folder, "policy.txt"), (&below, "../policy.txt"), (&place.folder, "-")] {
        let words = ["policy", "write", "-o", &place.file, "--record", &place.record, description];
        let input = fs::File::open(&place.text).expect("the description");
        let output = tool().args(words).current_dir(folder).stdin(input).output().expect("the tool runs");
        assert_eq!(ran(output).status, OK, "{description}");
        let lists = policy::descriptions(&place.taken().0).expect("a description");
        let found: Vec<&[u8]> = lists[0].elements.iter().map(|element| &element.body[..]).collect();
        assert_eq!(found, bodies, "{description}");
    }
    let ran = ran(run_on(b"list\nlist x\n", &["policy", "write", "-o", &place.file, "--record", &place.record, "-"]));
    assert!(ran.status == MISUSE && ran.err.starts_with("bleiwurzel: standard input:2: "), "{}", ran.err);
}

/// Both files are written or none, none is overwritten, and nothing else is left.
#[test]
fn both_files_or_none() {
    let place = Place::new("both_files_or_none");
    let text = "list\ncustom body=00\n";
    for there in [&place.file, &place.record] {
        fs::write(there, b"kept").expect("a file");
        let ran = place.write(text, &[]);
        let flag = if *there == place.file { "--output" } else { "--record" };
        assert_eq!((ran.status, ran.out.as_str()), (MISUSE, ""), "{there}");
        let said = format!("is there already; remove it or choose another name for {flag}\n");
        assert!(ran.err.contains(&said), "{}", ran.err);
        assert_eq!((fs::read(there).expect("the file"), place.names().len()), (b"kept".to_vec(), 2), "{there}");
        fs::remove_file(there).expect("the file goes");
    }
    let nowhere = place.folder.join("nowhere/x").to_string_lossy().into_owned();
    let same = place.folder.join("./policy.data").to_string_lossy().into_owned();
    let within = |name: &str| format!("{}/./{name}", place.folder.display());
    for (file, record) in
        [(&place.file, &nowhere), (&nowhere, &place.record), (&place.file, &within("policy.data")), (&same, &place.file)]
    {
        let ran = run(&["policy", "write", "-o", file, "--record", record, &place.text]);
        assert_eq!((ran.status, ran.out.as_str()), (MISUSE, ""), "{file} {record}");
        assert_eq!(place.names(), ["policy.txt"], "{file} {record}: {}", ran.err);
    }
    // A limit on the size of files makes a write fail.
    fs::write(&place.text, format!("list\ncustom body={}\n", "00".repeat(9000))).expect("a description");
    let words = ["policy", "write", "-o", &place.file, "--record", &place.record, &place.text];
    let failed = ran(in_bash("trap '' XFSZ; ulimit -f 4; exec \"$0\" \"$@\"", &words));
    assert!(failed.status == MISUSE && failed.err.contains("cannot write "), "{}", failed.err);
    assert_eq!(place.names(), ["policy.txt"]);
    let unsaid = ran(in_bash("exec \"$0\" \"$@\" > /dev/full", &words));
    assert!(unsaid.status == MISUSE && unsaid.err.contains(" were written, but that cannot be said"), "{}", unsaid.err);
    assert_eq!(place.names(), ["policy.data", "policy.pol", "policy.txt"]);
}

#[test]
fn one_of_them_to_standard_output() {
    let place = Place::new("one_of_them_to_standard_output");
    assert_eq!(place.write("list\ncustom body=0011\n", &[]).status, OK);
    let (file, record) = place.taken();
    let made = run_on(b"", &["policy", "write", "-o", "-", "--record", &place.record, &place.text]);
    assert!(made.status.success() && made.stdout == file && made.stderr.is_empty());
    assert_eq!(fs::read(&place.record).expect("the record"), record);
    fs::remove_file(&place.record).expect("the record goes");
    let made = run_on(b"", &["policy", "write", "--output", &place.file, "--record=-", &place.text]);
    assert!(made.status.success() && made.stdout == record && made.stderr.is_empty());
    assert_eq!(fs::read(&place.file).expect("the file"), file);
    fs::remove_file(&place.file).expect("the file goes");
    let words = ["policy", "write", "-o", "-", "--record", &place.record, &place.text];
    assert_eq!(ran(in_bash("exec \"$0\" \"$@\" > /dev/full", &words)).status, MISUSE);
    assert_eq!(place.names(), ["policy.txt"], "no record without its file");
}

/// The report of a refusal is no policy file and no record.
#[test]
fn a_refusal_leaves_standard_output_alone() {
    let place = Place::new("a_refusal_leaves_standard_output_alone");
    let refused = place.write("list version=0x0300\n", &[]);
    assert_eq!((refused.status, refused.err.as_str()), (REFUSED, ""));
    for (file, record) in [("-", place.record.as_str()), (place.file.as_str(), "-")] {
        let ran = run(&["policy", "write", "-o", file, "--record", record, &place.text]);
        assert_eq!((ran.status, ran.out.as_str(), &ran.err), (REFUSED, "", &refused.out), "{file} {record}");
        assert_eq!(place.names(), ["policy.txt"], "{file} {record}");
    }
}

/// Nobody is told to remove the description, under whatever name a file is to be written there.
#[test]
fn the_description_is_no_output() {
    let place = Place::new("the_description_is_no_output");
    fs::write(&place.text, "list\n").expect("a description");
    let other = format!("{}/./policy.txt", place.folder.display());
    for (file, record, name, flag) in [
        (&place.text, &place.record, &place.text, "--output"),
        (&place.file, &place.text, &place.text, "--record"),
        (&other, &place.record, &other, "--output"),
    ] {
        let ran = run(&["policy", "write", "-o", file, "--record", record, &place.text]);
        let said = format!("bleiwurzel: '{name}' is the description; choose another name for {flag}\n");
        assert!(ran.status == MISUSE && ran.err.starts_with(&said), "{}", ran.err);
        assert_eq!((fs::read(&place.text).expect("the description"), place.names().len()), (b"list\n".to_vec(), 1));
    }
}

/// A description without the record says what a new record has.
#[test]
fn a_description_without_its_record() {
    let place = Place::new("a_description_without_its_record");
    assert_eq!(place.write("record sinit-min-version=3\nlist\n", &[]).status, OK);
    let said = "# no record: its fields are left out and have their defaults, 0 for sinit-min-version and counters\n";
    assert_eq!(printed(&place.file, &[]).matches(said).count(), 1);
    assert!(!printed(&place.file, &["--policy-record", &place.record]).contains(said));
    assert_eq!(RecordFields::default().counters, [0; 8]);
    assert_eq!(RecordFields::default().sinit_min_version, 0);
}

#[test]
fn as_json() {
    let place = Place::new("as_json");
    let ran = place.write("list\ncustom body=0011\n", &["--json"]);
    assert!(ran.status == OK && is_json(&ran.out), "{}", ran.out);
    let begin =
        format!("{{\"written\": \"{}\", \"bytes\": 58, \"record\": \"{}\", \"record_bytes\": 70, ", place.file, place.record);
    assert!(ran.out.starts_with(&begin), "{}", ran.out);
    let json = run(&["policy", "show", "--as-description", &place.file, "--json"]);
    let begin = "{\"answer\": \"accepted\", \"number\": 0, \"description\": \"# a policy file of 58 bytes; ";
    assert!(json.status == OK && is_json(&json.out) && json.out.starts_with(begin), "{}", json.out);
    assert!(json.out.ends_with("\\nlist version=0x0201\\ncustom control=0x00000000 body=0011\\n\"}\n"), "{}", json.out);
}

/// What cannot be said in a description is named by list and element; a string that is no policy file is refused as ever.
#[test]
fn files_without_a_description() {
    let place = Place::new("files_without_a_description");
    let data = |name: &str| top().join("crates/policy_show/data").join(name).to_string_lossy().into_owned();
    for (name, message) in [
        ("signed2048-0x201.data", "list 1 is signed, and only unsigned lists have a description"),
        ("three-0x201.data", "element 1 of list 2 has type 0x14 and only types 0x10 and 3 have a description"),
    ] {
        let ran = run(&["policy", "show", "--as-description", &data(name)]);
        assert_eq!((ran.status, ran.out.as_str()), (MISUSE, ""), "{name}");
        assert!(ran.err.contains(message) && ran.err.contains(name), "{name}: {}", ran.err);
    }
    let path = data("27-list-sigalg-0015.pol");
    let ran = run(&["policy", "show", "--as-description", &path]);
    assert_eq!((ran.status, ran.out), (REFUSED, run(&["policy", &path]).out));
    let plain = data("plain-0x201.data");
    for (length, said) in [(69, "it has 69 bytes, and a record has 70"), (71, "it has 71 bytes or more, and a record has 70")] {
        fs::write(&place.record, vec![0; length]).expect("a record");
        let ran = run(&["policy", "show", "--as-description", &plain, "--policy-record", &place.record]);
        assert!(ran.status == MISUSE && ran.out.is_empty() && ran.err.contains(said), "{}", ran.err);
    }
}

/// `show` may be left out, and a file of that name is shown behind `--` or with its folder.
#[test]
fn show_may_be_left_out() {
    let place = Place::new("show_may_be_left_out");
    let plain = top().join("crates/policy_show/data/plain-0x201.data");
    let path = plain.to_string_lossy().into_owned();
    let shown = run(&["policy", &path]);
    assert_eq!(run(&["policy", "show", &path]).out, shown.out);
    for name in ["show", "write"] {
        fs::copy(&plain, place.folder.join(name)).expect("a copy");
        for words in [&["policy", "--", name][..], &["policy", "show", name], &["policy", &format!("./{name}")]] {
            let output = tool().args(words).current_dir(&place.folder).output().expect("the tool runs");
            assert_eq!(ran(output).out, shown.out, "{words:?}");
        }
    }
}

/// The command that is named shows the file, whatever its name is.
#[test]
fn the_suggested_command_can_be_run() {
    let place = Place::new("the_suggested_command");
    fs::write(&place.text, "list\n").expect("a description");
    for name in ["plain.data", "show", "write", "-x", "--json", "two words", "it's $(x)"] {
        let words = [&format!("--output={name}"), "--record=policy.pol", "policy.txt"];
        let made = tool().args(["policy", "write"]).args(words).current_dir(&place.folder).output().expect("the tool runs");
        let made = ran(made);
        assert_eq!((made.status, made.err.as_str()), (OK, ""), "{name}");
        let command = made.out.lines().find_map(|line| line.strip_prefix("Look at it: bleiwurzel ")).expect("a command");
        let script = format!("cd \"$1\" && \"$0\" {command}");
        let shown = ran(in_bash(&script, &[&place.folder]));
        assert!(shown.status == OK && shown.out.starts_with("accepted, 44 bytes\n"), "{command}: {}", shown.err);
        fs::remove_file(&place.record).expect("the record goes");
    }
}
