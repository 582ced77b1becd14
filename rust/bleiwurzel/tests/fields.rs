//! What is said of a policy file that is not of the grammar: the field at the proved place by its name and offset, what was expected and found there,
//! and how the tool shows its bytes.

mod common;
#[path = "common/json.rs"]
mod json;
#[path = "common/tool.rs"]
mod tool;

use bleiwurzel::finding::{self, Field};
use bleiwurzel::{policy, Refusal, MOST_PAGES};
use common::*;
use json::is_json;
use tool::*;

/// Holds what is said of a policy file to: which field it is, what was expected and found, and how many bytes the field has.
fn said(file: &[u8], place: &str, expected: &str, found: &str, length: u32) {
    let refusal = policy::read(file).expect_err("a refusal");
    let finding = finding::find_in_policy(refusal, file).expect("a finding");
    let said = [&finding.place, &finding.expected, &finding.found].map(String::as_str);
    assert_eq!(said, [place, expected, found]);
    assert_eq!(finding.field.map(|field| field.bytes.end - field.bytes.start), Some(length), "{place}");
}

/// A file of one list with a launch element of one digest, with a number of it changed, up to an end.
fn changed(at: usize, number: u64, width: usize, end: usize) -> Vec<u8> {
    let (mut file, _) = policy_file(&[list(&[launch(0, &[[1; 32]])])]);
    put(&mut file, at, number, width);
    file.push(0);
    file.truncate(end);
    file
}

#[test]
fn fields_before_the_lists() {
    let mark = "49 6e 74 65 6c 28 52 29 20 54 58 54 20 4c 43 50 5f 50 4f 4c 49 43 59 5f 44 41 54 41 00 00 00";
    let name = "the mark, `Intel(R) TXT LCP_POLICY_DATA` and 4 zeros (file offset 0, 0x0)";
    said(&changed(31, 1, 1, 94), name, &format!("{mark} 00"), &format!("{mark} 01, which differs first at offset 31 (0x1f)"), 32);
    let found = "00 00 07, which differs first at offset 34 (0x22)";
    said(&changed(34, 7, 1, 94), "the 3 zeros before the list count (file offset 32, 0x20)", "00 00 00", found, 3);
    said(&changed(35, 9, 1, 94), "the list count (file offset 35, 0x23)", "1 to 8", "9", 1);
}

#[test]
fn fields_of_a_list() {
    let version = "the version of list 0 (file offset 36, 0x24)";
    said(&changed(36, 0x0300, 2, 94), version, "0x0200 or 0x0201", "0x0300", 2);
    said(&changed(36, 0x0201, 2, 37), version, "2 bytes inside the file, whose list count is 1", "1 byte left", 1);
    let version = "the version of list 1 (file offset 94, 0x5e)";
    said(&changed(35, 2, 1, 94), version, "2 bytes inside the file, whose list count is 2", "0 bytes left", 0);
    let algorithm = "the signature algorithm of list 0 (file offset 38, 0x26)";
    said(&changed(38, 0x0015, 2, 94), algorithm, "0x0010 (none) or 0x0014 (RSASSA)", "0x0015", 2);
    let size = "the elements size of list 0 (file offset 40, 0x28)";
    said(&changed(40, 51, 4, 94), size, "at most 50, the bytes left in the file", "51", 4);
    said(&changed(40, 50, 4, 43), size, "4 bytes inside the file", "3 bytes left", 3);
    said(&changed(35, 1, 1, 95), "what follows the last list (file offset 94, 0x5e)", "the end of the file", "1 byte more", 1);
}

#[test]
fn fields_behind_the_elements_of_a_list() {
    let (file, _) = policy_file(&[list(&[]), signed(&[], 384)]);
    said(&file[..53], "the counter of list 1 (file offset 52, 0x34)", "2 bytes inside the file", "1 byte left", 1);
    let size = "the key size of list 1 (file offset 54, 0x36)";
    said(&file[..54], size, "2 bytes inside the file", "0 bytes left", 0);
    let both = "a key and a signature of 384 bytes each inside the file";
    said(&file[..file.len() - 1], size, both, "384, and 767 bytes left for both", 2);
    let mut other = file;
    put(&mut other, 54, 512, 2);
    said(&other, size, "256 or 384", "512", 2);
}

#[test]
fn fields_of_an_element() {
    let size = "the size of element 0 of list 0 (file offset 44, 0x2c)";
    said(&changed(44, 11, 4, 94), size, "at least 12, since the size counts size, type and control", "11", 4);
    said(&changed(44, 51, 4, 94), size, "at most 50, the bytes left in the list's elements", "51", 4);
    let left = policy_file(&[list(&[launch(0, &[[1; 32]]), vec![12, 0, 0, 0, 3]])]).0;
    let size = "the size of element 1 of list 0 (file offset 94, 0x5e)";
    said(&left, size, "an element of at least 12 bytes, or no bytes", "5 bytes left in the list's elements", 5);
    let short =
        |length: usize| policy_file(&[list(&[element(0x10, &launch_body(0, 0x000b, 0, &[])[..length]), element(3, b"")])]).0;
    for (length, field, offset, bytes, left) in [
        (0, "SINITMinVersion", "56, 0x38", "1 byte", "0 bytes"),
        (1, "the reserved byte", "57, 0x39", "1 byte", "0 bytes"),
        (3, "HashAlg", "58, 0x3a", "2 bytes", "1 byte"),
        (4, "the digest count", "60, 0x3c", "2 bytes", "0 bytes"),
    ] {
        let place = format!("{field} of element 0 of list 0 (file offset {offset})");
        let expected = format!("{bytes} inside the element of {} bytes", 12 + length);
        said(&short(length), &place, &expected, &format!("{left} left"), u32::from(left == "1 byte"));
    }
}

/// A count that reaches past its element, and one that leaves bytes behind the digests.
#[test]
fn digests_of_an_element() {
    let algorithm = "HashAlg of element 0 of list 0 (file offset 58, 0x3a)";
    said(&changed(58, 0x000a, 2, 94), algorithm, "0x0004, 0x000b, 0x000c, 0x000d or 0x0012", "0x000a", 2);
    let count = "the digest count of element 0 of list 0 (file offset 60, 0x3c)";
    let most = "at most 1, with 32 bytes left in the element of 50 bytes for digests of 32 bytes";
    said(&changed(60, 2, 2, 94), count, most, "2", 2);
    let behind = "what follows the digests of element 0 of list 0 (file offset 62, 0x3e)";
    let end = "the end of the element of 50 bytes, after 0 digests of 32 bytes";
    said(&changed(60, 0, 2, 94), behind, end, "32 bytes more", 32);
    let stm = policy_file(&[list(&[element(0x14, &stm_body(0x0004, 1, &[9; 21]))])]).0;
    let behind = "what follows the digests of element 0 of list 0 (file offset 80, 0x50)";
    said(&stm, behind, "the end of the element of 37 bytes, after 1 digest of 20 bytes", "1 byte more", 1);
}

/// In memory the field has a physical address, which counts from the file's and not from the window's.
#[test]
fn a_field_in_memory() {
    let image = image(&Shape::default());
    let address = image.platform.window_base + image.window.len() as u64 + 36;
    let image = with_file(&image, &changed(36, 0x0300, 2, 94), &[0; 32]);
    let finding =
        finding::find(Refusal { number: 27, place: 36 }, &image.parts(), &image.platform, MOST_PAGES).expect("a finding");
    assert_eq!(finding.place, format!("the version of list 0 (policy file offset 36, 0x24, physical {address:#x})"));
    assert_eq!(finding.field, Some(Field { name: "the version of list 0".to_string(), bytes: 36..38 }));
    for refusal in [Refusal { number: 27, place: 38 }, Refusal { number: 28, place: 0 }] {
        assert_eq!(finding::find(refusal, &image.parts(), &image.platform, MOST_PAGES), None, "{refusal:?}");
    }
}

/// What the tool says of a policy file, as text and as JSON.
fn shown(name: &str, file: &[u8]) -> [String; 2] {
    let path = folder(name).join("policy.data").to_string_lossy().into_owned();
    std::fs::write(&path, file).expect("a policy file");
    let [text, json] = [run(&["policy", &path]), run(&["policy", &path, "--json"])];
    assert_eq!((text.status, json.status, text.err + &json.err), (REFUSED, REFUSED, String::new()), "{name}");
    assert!(is_json(&json.out) && text.out.lines().all(|line| line.chars().count() <= 80), "{name}: {}{}", text.out, json.out);
    [text.out, json.out]
}

#[test]
fn the_tool_marks_the_field() {
    let [text, json] = shown("the_tool_marks_the_field", &changed(38, 0x0015, 2, 94));
    let begin = "\
refused 27 at 38, policy grammar
The policy file is not of the grammar: a mark, a version, a count or a size in
it is wrong.

What was found
  where     the signature algorithm of list 0 (file offset 38, 0x26)
  expected  0x0010 (none) or 0x0014 (RSASSA)
  found     0x0015

  0x00010  5f 50 4f 4c 49 43 59 5f 44 41 54 41 00 00 00 00
  0x00020  00 00 00 01 01 02 15 00 32 00 00 00 32 00 00 00
                             ^^ ^^
  0x00030  10 00 00 00 00 00 00 00 00 00 0b 00 01 00 01 01

What to do at the rack
";
    assert!(text.starts_with(begin), "{text}");
    let begin = "{\"answer\": \"refused\", \"number\": 27, \"place\": 38, \"name\": \"policy grammar\", ";
    let finding = "\"finding\": {\"where\": \"the signature algorithm of list 0 (file offset 38, 0x26)\", \"field\": {\"name\": \"the signature \
                   algorithm of list 0\", \"offset\": 38, \"length\": 2}, \"expected\": \"0x0010 (none) or 0x0014 (RSASSA)\", \"found\": \"0x0015\", \
                   \"notes\": []}";
    assert!(json.starts_with(begin) && json.contains(finding), "{json}");
}

/// At the file's end there is no byte to mark, and of a long field only the front is shown.
#[test]
fn the_tool_marks_the_end_and_long_fields() {
    let [text, json] = shown("at_the_end", &changed(35, 2, 1, 94));
    let end = "\n  0x00050  01 01 01 01 01 01 01 01 01 01 01 01 01 01\n                                                     ^^ the file ends here\n";
    assert!(text.starts_with("refused 27 at 94, ") && text.contains(end), "{text}");
    assert!(json.contains("\"number\": 27, \"place\": 94, "), "{json}");
    let [text, _] = shown("a_long_field", &[changed(35, 1, 1, 94), vec![7; 65_000]].concat());
    assert!(text.contains("  found     65000 bytes more\n") && text.contains("\n  ..       65000 bytes in all\n"), "{text}");
    assert!(text.matches("^^").count() < 64, "{text}");
    let [text, json] = shown("no_policy_file", &[0; 36]);
    assert!(text.starts_with("refused 27 at 0, ") && text.matches("^^").count() == 32, "{text}");
    assert!(json.contains("\"number\": 27, \"place\": 0, "), "{json}");
    let [text, json] = shown("too_short", &[0; 35]);
    assert!(text.starts_with("refused 26, policy place\n") && !text.contains("^^"), "{text}");
    assert!(json.contains("\"number\": 26, \"place\": 0, "), "{json}");
}

/// The check has the place too, for the policy file in the window; a number that is not 27 has place 0.
#[test]
fn the_check_names_the_place() {
    let good = image(&Shape::default());
    let folder = folder("the_check_names_the_place");
    let asked = |file: &[u8], json: &[&str]| run_with(&["check"], &written(&folder, &with_file(&good, file, &[0; 32])), json).out;
    let text = asked(&changed(36, 0x0300, 2, 94), &[]);
    let address = good.platform.window_base + good.window.len() as u64 + 36;
    let place = format!(
        "where the version of list 0 (policy file offset 36, 0x24, physical {address:#x}) expected 0x0200 or 0x0201 found 0x0300"
    );
    let words = text.split_whitespace().collect::<Vec<_>>().join(" ");
    assert!(text.starts_with("refused 27 at 36, policy grammar\n") && words.contains(&place), "{text}");
    assert!(asked(&changed(36, 0x0300, 2, 94), &["--json"]).contains("\"number\": 27, \"place\": 36, "));
    assert!(asked(&changed(36, 0x0201, 2, 94), &["--json"]).contains("\"number\": 28, \"place\": 0, "));
}
