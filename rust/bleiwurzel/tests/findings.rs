//! What a finding says: the exact field and offset, whole ranges, exact lengths, plain counts; and that it costs no more than it must.

mod common;
#[path = "common/stored_image.rs"]
mod stored_image;
#[path = "common/tool.rs"]
mod tool;

use bleiwurzel::finding::{self, AtHand, Finding, Lengths};
use bleiwurzel::{capture, policy, refusals, sha256, Refusal, MOST_PAGES, MOST_STM};
use common::*;
use std::time::{Duration, Instant};
use stored_image::*;
use tool::*;

/// So many stored captures and cases are refused by 29, or more.
const LEAST_REFUSED_BY_29: usize = 38;

/// A refusal that has no place.
fn refused(number: u32) -> Refusal {
    Refusal { number, place: 0 }
}

/// What is found in a policy file that is refused.
fn found_in(file: &[u8]) -> Option<Finding> {
    finding::find_in_policy(policy::read(file).err()?, file)
}

fn found(name: &str) -> Finding {
    let bytes = std::fs::read(stored(name)).expect("a stored capture");
    finding::first_in_capture(&bytes, capture::PLACES).expect("a refusal")
}

/// More pages than a capture has room for: the finding says so, and the parts are lent places for all of them.
#[test]
fn more_pages_than_the_places_for_a_capture() {
    let name = "12-pages-4097.cap";
    let finding = found(name);
    let expected = "at least 4097 places, as many as MLE Size has pages";
    assert_eq!((finding.number, finding.expected.as_str(), finding.found.as_str()), (13, expected, "4096 places"));
    let notes = [
        "MLE Size, offset 16 in OsSinitData (heap offset 0x28): 16781312 (0x1001000)",
        "a capture has at most 65536 bytes, so this one does not hold that many pages",
    ];
    assert_eq!(finding.notes, notes);
    let bytes = std::fs::read(stored(name)).expect("a stored capture");
    for (places, said) in [(15, 1), (16, 2)] {
        assert_eq!(finding::first_in_capture(&bytes, places).map(|finding| finding.notes.len()), Some(said), "{places} places");
    }
    let ran = run(&["check", "--capture", &stored(name)]);
    assert!(ran.status == REFUSED && ran.out.starts_with("refused 13, page list\n"), "{}", ran.out);
    let words = written(&folder("more_pages_than_the_places"), &stored_image(name));
    let ran = run_with(&["check"], &words, &[]);
    assert!(ran.status == REFUSED && ran.out.starts_with("refused 21, "), "{}", ran.out);
}

/// Of an element with a wrong size, the size is named, which stands 4 bytes behind the type.
#[test]
fn the_offset_of_an_element_is_that_of_its_size() {
    for name in ["04-P4-skipped-size-7.cap", "04-size-max.cap", "04-skipped-size-0.cap", "04-end-size-16-holds-end.cap"] {
        let finding = found(name);
        assert!(finding.place.ends_with(&format!("size (heap offset {:#x})", ELEMENTS + 4)), "{name}: {}", finding.place);
    }
}

#[test]
fn a_page_outside_the_window_is_shown_whole() {
    for (name, range) in
        [("15-base-at-window-end.cap", "0x106000 to 0x106fff"), ("15-base-max.cap", "0xfffffffffffff000 to 0xffffffffffffffff")]
    {
        assert_eq!(found(name).found, range, "{name}");
    }
}

#[test]
fn the_hole_is_printed_once() {
    let expected = found("17-hole-page-a0000.cap").expected;
    assert_eq!(expected.matches("0xa0000").count(), 1, "{expected}");
}

/// What is found of an image of the pages 0x103000 and 0x104000 with these reserved ranges: place, what was expected, and what was found.
fn of_ranges(number: u32, ranges: &[(u64, u64)]) -> [String; 3] {
    let mut image = image(&Shape::default());
    image.reserve(ranges);
    let finding = finding::find(refused(number), &image.parts(), &image.platform, MOST_PAGES).expect("a finding");
    assert_eq!(finding.notes, [] as [String; 0]);
    [finding.place, finding.expected, finding.found]
}

/// The first range that a page touches is named by its index, which counts those of size 0 too.
#[test]
fn a_page_in_a_reserved_range() {
    let place = "entry 1 of the page table at 0x102000 (physical 0x102008, window offset 0x2008), which maps linear 0x1000";
    let page = "0x104000 to 0x104fff";
    let ranges = [(0x104800, 0), (0x3000_0000, 0x1000), (0x105000, 1), (0x104fff, 0x2000), (0x104000, 1)];
    let expected = "clear of reserved range 3, 0x104fff to 0x106ffe";
    assert_eq!(of_ranges(17, &ranges), [place, expected, page]);
    let most = [(0x104000, (1 << 52) - 0x104000)];
    assert_eq!(of_ranges(17, &most), [place, "clear of reserved range 0, 0x104000 to 0xfffffffffffff", page]);
    let base = "page table base, offset 8 in OsSinitData (heap offset 0x20)";
    let expected = "clear of reserved range 0, 0x100fff to 0x100fff";
    assert_eq!(of_ranges(17, &[(0x100fff, 1)]), [base, expected, "0x100000 to 0x100fff"]);
}

/// What rule 17 had before comes first.
#[test]
fn a_page_in_the_heap_and_in_a_reserved_range() {
    let mut image = image(&Shape::default());
    image.platform.heap_base = 0x104000;
    image.reserve(&[(0x104000, 0x1000)]);
    let finding = finding::first(&image.parts(), &image.platform, MOST_PAGES).expect("a refusal");
    assert_eq!((finding.number, finding.expected.as_str()), (17, "clear of the heap, 0x104000 to 0x10407b"));
}

#[test]
fn the_end_of_a_reserved_range() {
    let (place, expected) = ("end of reserved range 2: its base plus its size", "at most 2^52 (0x10000000000000)");
    for (base, size, found) in [
        (1 << 52, 1, "0x10000000000000 + 0x1 = 0x10000000000001"),
        ((1 << 52) + 1, 0, "0x10000000000001 + 0x0 = 0x10000000000001"),
        (u64::MAX, u64::MAX, "0xffffffffffffffff + 0xffffffffffffffff = 0x1fffffffffffffffe"),
    ] {
        assert_eq!(of_ranges(1, &[(0, 0), (1 << 52, 0), (base, size)]), [place, expected, found]);
    }
}

/// What is found of this image where DPR, low PMR and high PMR are these.
fn with_regions(mut image: Image, dpr: Region, low: Region, high: Region) -> Finding {
    image.set_regions(dpr, low, high);
    finding::first(&image.parts(), &image.platform, MOST_PAGES).expect("a refusal")
}

fn strings(texts: &[&str]) -> Vec<String> {
    texts.iter().map(|text| text.to_string()).collect()
}

/// The low PMR that holds the tables of `outside`, and no page.
const LOW_TABLES: &str = "PMR low (0xffffd000 to 0xffffffff)";
const NOT_LOW: &str = "PMR low (0xffffd000 to 0xffffffff) does not hold it";

/// Holds what is said of 20, for three pages from 4 GiB on with this DPR and high PMR (base and size), to: which page, what was expected of it,
/// and the notes. The tables are in the low PMR, which ends where the pages begin.
fn outside(dpr: Region, high: Region, page: u64, expected: &str, notes: &[&str]) {
    let image = image(&Shape { base: 0xffff_d000, pages: 3, ..Shape::default() });
    let finding = with_regions(image, dpr, (0xffff_d000, 0x3000), high);
    let (entry, linear) = (0x2000 + 8 * page, 0x1000 * page);
    let place = format!(
        "entry {page} of the page table at 0xfffff000 (physical {:#x}, window offset {entry:#x}), which maps linear {linear:#x}",
        0xffff_d000 + entry
    );
    let found = format!("page {:#x} to {:#x}", (1 << 32) + linear, (1 << 32) + linear + 0xfff);
    assert_eq!(finding, Finding { number: 20, place, expected: expected.to_string(), found, notes: strings(notes), field: None });
}

/// All three regions are named, and those that hold a part of it.
#[test]
fn a_first_page_in_no_region() {
    let expected =
        format!("wholly in one of DPR (0x100001000 to 0x100002fff), {LOW_TABLES}, PMR high (0x100000001 to 0x100002fff)");
    let part = "PMR high (0x100000001 to 0x100002fff) holds a part of it only";
    outside((0x1_0000_1000, 0x2000), (0x1_0000_0001, 0x2fff), 0, &expected, &[part]);
    let expected = format!("wholly in one of DPR (of size 0), {LOW_TABLES}, PMR high (of size 0)");
    outside((0, 0), (0, 0), 0, &expected, &[]);
}

/// The region that holds every page before it is named, and why the others will not do.
#[test]
fn a_later_page_outside_one_region() {
    let expected = "wholly in DPR (0xffffd000 to 0x100000fff), which holds every page before it";
    let other = "PMR high (0x100000001 to 0x100002fff) holds it, but not the first page, 0x100000000 to 0x100000fff";
    outside((0xffff_d000, 0x4000), (0x1_0000_0001, 0x2fff), 1, expected, &[NOT_LOW, other]);
    let expected = "wholly in PMR high (0x100000000 to 0x100002ffe), which holds every page before it";
    let other = "DPR (0x100001000 to 0x100002fff) holds it, but not the first page, 0x100000000 to 0x100000fff";
    outside((0x1_0000_1000, 0x2000), (1 << 32, 0x2fff), 2, expected, &[other, NOT_LOW]);
    let other = "DPR (0x100000000 to 0x100000fff) does not hold it";
    outside((1 << 32, 0x1000), (1 << 32, 0x2fff), 2, expected, &[other, NOT_LOW]);
}

/// Two regions are two, also where their ranges are equal.
#[test]
fn a_later_page_outside_two_regions() {
    let expected =
        "wholly in one of DPR (0x100000000 to 0x100001fff), PMR high (0x100000000 to 0x100002ffe), each of which holds every page before it";
    outside((1 << 32, 0x2000), (1 << 32, 0x2fff), 2, expected, &[NOT_LOW]);
    let expected =
        "wholly in one of DPR (0x100000000 to 0x100001fff), PMR high (0x100000000 to 0x100001fff), each of which holds every page before it";
    outside((1 << 32, 0x2000), (1 << 32, 0x2000), 2, expected, &[NOT_LOW]);
}

/// Holds what is said of 20 for a table: where it is named, which it is, and the notes. DPR and low PMR are given up to, not including, their ends.
/// The pointer table at 0x100000 has two directories behind it, then a page table of each, then the pages.
fn table_outside(dpr: (u64, u64), low: (u64, u64), place: &str, found: &str, notes: &[&str]) {
    let image = image(&Shape { pages: 3, first: 512 * 512 - 1, ..Shape::default() });
    assert_eq!(image.listed[0], 0x105000);
    let finding = with_regions(image, (dpr.0, dpr.1 - dpr.0), (low.0, low.1 - low.0), (0, 0));
    let expected = format!(
        "wholly in one of DPR ({:#x} to {:#x}), PMR low ({:#x} to {:#x}), PMR high (of size 0)",
        dpr.0,
        dpr.1 - 1,
        low.0,
        low.1 - 1
    );
    let (place, found) = (place.to_string(), found.to_string());
    assert_eq!(finding, Finding { number: 20, place, expected, found, notes: strings(notes), field: None });
}

/// A table is named by its kind and by what names it: OsSinitData, or an entry, with the entry of the pointer table that leads there.
#[test]
fn a_table_in_no_region() {
    let base = "page table base, offset 8 in OsSinitData (heap offset 0x20)";
    let found = "table page 0x100000 to 0x100fff (pointer table)";
    table_outside((0x101000, 0x108000), (0xf0000, 0x100000), base, found, &[]);
    let parts = ["DPR (0x100001 to 0x107fff) holds a part of it only", "PMR low (0xf0000 to 0x100ffe) holds a part of it only"];
    table_outside((0x100001, 0x108000), (0xf0000, 0x100fff), base, found, &parts);
    table_outside(
        (0x100000, 0x101000),
        (0x102000, 0x108000),
        "entry 0 of the pointer table at 0x100000 (physical 0x100000, window offset 0x0)",
        "table page 0x101000 to 0x101fff (directory)",
        &[],
    );
    table_outside(
        (0x100000, 0x102001),
        (0x103000, 0x108000),
        "entry 1 of the pointer table at 0x100000 (physical 0x100008, window offset 0x8)",
        "table page 0x102000 to 0x102fff (directory)",
        &["DPR (0x100000 to 0x102000) holds a part of it only"],
    );
    table_outside(
        (0x100000, 0x103000),
        (0x103fff, 0x108000),
        "entry 511 of the directory at 0x101000 (physical 0x101ff8, window offset 0x1ff8), under entry 0 of the pointer table",
        "table page 0x103000 to 0x103fff (page table)",
        &["PMR low (0x103fff to 0x107fff) holds a part of it only"],
    );
    table_outside(
        (0x105000, 0x108000),
        (0x100000, 0x104000),
        "entry 0 of the directory at 0x102000 (physical 0x102000, window offset 0x2000), under entry 1 of the pointer table",
        "table page 0x104000 to 0x104fff (page table)",
        &[],
    );
}

/// The 41st table is named like that, too.
#[test]
fn one_table_too_many() {
    let image = image(&Shape { empty_tables: 38, ..Shape::default() });
    let finding = finding::first(&image.parts(), &image.platform, MOST_PAGES).expect("a refusal");
    let place =
        "entry 38 of the directory at 0x101000 (physical 0x101130, window offset 0x1130), under entry 0 of the pointer table";
    let (expected, found) = ("at most 40 table pages, the base counted", "0x128000, table page 41");
    assert_eq!((finding.number, finding.place.as_str()), (18, place));
    assert_eq!((finding.expected.as_str(), finding.found.as_str()), (expected, found));
}

/// What the tool prints of a table, as text and as JSON.
#[test]
fn the_tool_shows_the_table() {
    let name = stored("20-x-directory-before-entry-14.cap");
    let shown = "
  where     entry 0 of the pointer table at 0x101000 (physical 0x101000, window
            offset 0x1000)
  expected  wholly in one of DPR (0x101000 to 0x101fff), PMR low (0x103000 to
            0x105fff), PMR high (of size 0)
  found     table page 0x102000 to 0x102fff (directory)
";
    let ran = run(&["check", "--capture", &name]);
    assert!(ran.status == REFUSED && ran.out.contains(shown), "{}", ran.out);
    let ran = run(&["check", "--capture", &name, "--json"]);
    let shown = "\"found\": \"table page 0x102000 to 0x102fff (directory)\", \"notes\": []}";
    assert!(ran.status == REFUSED && ran.out.contains(shown), "{}", ran.out);
}

/// What is found of LcpHashAlgMask, under ANY and under LIST, and of the record by itself.
#[test]
fn the_mask_of_a_record() {
    let any = image(&Shape::default());
    for good in [under_list(&any), any] {
        assert_eq!(finding::first_in_record(&good.record), None);
        for (mask, found) in [(0, "0x0000"), (0xfff7, "0xfff7"), (0x0800, "0x0800")] {
            let mut image = good.clone();
            put(&mut image.record, HASH_ALG_MASK, mask, 2);
            let place = "LcpHashAlgMask, record offset 28".to_string();
            let expected = "the bit 0x0008 (SHA-256) set".to_string();
            let finding = Some(Finding { number: 23, place, expected, found: found.to_string(), notes: Vec::new(), field: None });
            assert_eq!(finding::find(refused(23), &image.parts(), &image.platform, MOST_PAGES), finding);
            assert_eq!(finding::first_in_record(&image.record), finding);
        }
    }
}

/// Of several wrong fields of a record the first is named.
#[test]
fn the_first_wrong_field_of_a_record() {
    let mut record = image(&Shape::default()).record;
    for (at, number, width, field) in [
        (HASH_ALG_MASK, 0, 2, "LcpHashAlgMask, record offset 28"),
        (4, 2, 1, "type, record offset 4"),
        (2, 0x000c, 2, "HashAlg, record offset 2"),
        (0, 0x0200, 2, "version, record offset 0"),
    ] {
        put(&mut record, at, number, width);
        assert_eq!(finding::first_in_record(&record).map(|finding| finding.place), Some(field.to_string()));
    }
    record.pop();
    assert_eq!(finding::first_in_record(&record).map(|finding| finding.found), Some("69 bytes".to_string()));
}

/// What the tool prints of a later page, as text and as JSON.
#[test]
fn the_tool_shows_the_regions() {
    let name = stored("20-three-pages-leaves-none.cap");
    let shown = "
  expected  wholly in DPR (0x101000 to 0x105fff), which holds every page before
            it
  found     page 0x106000 to 0x106fff
            PMR low (0x105000 to 0x106fff) holds it, but not the first page,
            0x104000 to 0x104fff
            PMR high (of size 0) does not hold it
";
    let ran = run(&["check", "--capture", &name]);
    assert!(ran.status == REFUSED && ran.out.contains(shown), "{}", ran.out);
    let ran = run(&["check", "--capture", &name, "--json"]);
    let shown = "\"expected\": \"wholly in DPR (0x101000 to 0x105fff), which holds every page before it\", \"found\": \"page 0x106000 to \
                 0x106fff\", \"notes\": [\"PMR low (0x105000 to 0x106fff) holds it, but not the first page, 0x104000 to 0x104fff\", \"PMR high (of \
                 size 0) does not hold it\"]}";
    assert!(ran.status == REFUSED && ran.out.contains(shown), "{}", ran.out);
}

/// A capture has its parts whole, so their lengths are exact; of a file that was read up to its limit there may be more.
#[test]
fn lengths_are_exact_where_they_are_known() {
    let mut image = image(&Shape::default());
    image.record.push(0);
    let whole = capture::make(&image.parts(), &image.platform).expect("a capture");
    assert_eq!(
        finding::find_in_capture(refused(23), &whole, capture::PLACES).map(|finding| finding.found),
        Some("71 bytes".to_string())
    );
    let folder = folder("lengths_are_exact");
    let words = written(&folder, &image);
    assert!(run_with(&["check"], &words, &[]).out.contains("\n  found     71 bytes or more\n"));
    let long = |length: usize| finding::find_in_policy(refused(26), &vec![0; length]).map(|finding| finding.found);
    assert_eq!((long(65_537), long(1)), (Some("65537 bytes".to_string()), Some("1 byte".to_string())));
    assert_eq!(finding::first_in_capture(&vec![0; 70_000], 0).map(|finding| finding.found), Some("70000 bytes".to_string()));
}

/// Every text of a finding about the stored captures, and about stored policy files that are cut off anywhere.
fn all_texts() -> Vec<String> {
    let mut findings: Vec<Finding> =
        captures().iter().filter_map(|(_, bytes)| finding::first_in_capture(bytes, capture::PLACES)).collect();
    findings.extend((0..=76).filter_map(|length| finding::first_in_capture(&captures()[0].1[..length], capture::PLACES)));
    for name in ["three-0x201.data", "signed2048-0x200.data"] {
        let file = std::fs::read(top().join("crates/policy_show/data").join(name)).expect("a policy file");
        findings.extend((0..file.len()).filter_map(|length| found_in(&file[..length])));
        findings.extend(found_in(&[&file[..], &[0]].concat()));
    }
    findings
        .into_iter()
        .flat_map(|finding| [finding.place, finding.expected, finding.found].into_iter().chain(finding.notes))
        .collect()
}

#[test]
fn one_is_not_many() {
    let texts = all_texts();
    assert!(texts.iter().any(|text| text.contains("1 byte left")), "no text has one byte");
    for text in texts {
        let words: Vec<&str> = text.split_whitespace().collect();
        let many = words
            .windows(2)
            .find(|two| two[0] == "1" && ["bytes", "pages", "places", "digests"].contains(&two[1].trim_end_matches(',')));
        assert_eq!(many, None, "{text}");
    }
}

/// What is found for 22 and 23, by the field; each has a line for who stands at the rack.
#[test]
fn every_field_of_22_and_23_has_a_line_for_the_rack() {
    for (number, fields) in [
        (22, &["MLE header base", "HeaderLen", "UUID", "version", "EntryPoint", "FirstValidPage", "MleEnd"][..]),
        (23, &["HashAlg", "LcpHashAlgMask"]),
    ] {
        let lines = refusals::text(number).expect("a text").technician;
        for field in fields {
            let named = |line: &&str| line.starts_with("If ") && line.contains(&format!(" {field}"));
            assert!(lines.iter().any(named), "{number}: no line for {field}");
        }
    }
}

#[test]
fn no_command_advises_itself() {
    let data = |name: &str| top().join("crates/policy_show/data").join(name).to_string_lossy().into_owned();
    let short = folder("no_command_advises_itself").join("short").to_string_lossy().into_owned();
    std::fs::write(&short, b"Intel").expect("a short file");
    let calls = [["policy", &data("27-list-sigalg-0015.pol")], ["policy", &short]];
    for [command, file] in calls {
        for json in [&[][..], &["--json"]] {
            let ran = run(&[&[command, file][..], json].concat());
            assert_eq!(ran.status, REFUSED);
            let words = ran.out.split_whitespace().collect::<Vec<_>>().join(" ");
            assert!(!words.contains("bleiwurzel policy FILE"), "{words}");
            assert!(words.contains("from the store again") || words.contains("copy it again"), "it leads to nothing: {words}");
        }
    }
    let ran = run(&["capture", "show", &stored("30-74-bytes.cap")]);
    assert!(!ran.out.contains("capture show") && ran.out.contains("Copy the file again"), "{}", ran.out);
}

/// An image of two pages under a LIST policy of lists that are made of its digest, with an STM image.
fn with_stm(stm: &[u8], lists: impl Fn([u8; 32]) -> Vec<Vec<u8>>) -> Image {
    let image = Image { stm: stm.to_vec(), ..image(&Shape::default()) };
    let digest = sha256(&image.bytes());
    with_lists(&image, &lists(digest))
}

/// The reason for each list that does not permit.
fn reasons(stm: &[u8], lists: impl Fn([u8; 32]) -> Vec<Vec<u8>>) -> Vec<String> {
    let image = with_stm(stm, lists);
    finding::find(refused(29), &image.parts(), &image.platform, MOST_PAGES).map_or(Vec::new(), |finding| finding.notes)
}

#[test]
fn reasons_about_the_stm_image() {
    let named = sha256(b"named");
    let by_sha1 = || element(0x14, &stm_body(0x0004, 2, &[9; 40]));
    let lists = |digest| {
        vec![
            list(&[launch(0, &[digest]), stm(&[named])]),
            list(&[launch(0, &[[1; 32]]), stm(&[named])]),
            list(&[by_sha1(), launch(0, &[digest]), stm(&[[2; 32]])]),
            list(&[stm(&[named]), element(0x11, b"")]),
        ]
    };
    let no_image = "is an STM element (type 0x14), and no STM image was given";
    let unjudged = "has type 0x11 and only types 0x10, 3 and 0x14 are judged (and it does not name the digest)";
    let expected = [
        format!("list 0: element 1 (file offset 0x5e) {no_image}"),
        format!("list 1: element 1 (file offset 0xc8) {no_image} (and it does not name the digest)"),
        format!("list 2: element 0 (file offset 0x100) {no_image}"),
        format!("list 3: element 1 (file offset 0x1d2) {unjudged}"),
    ];
    assert_eq!(reasons(b"", lists), expected);
    let other: String = sha256(b"other").iter().map(|byte| format!("{byte:02x}")).collect();
    let not_named = format!(
        "it names the digest, but its STM elements (type 0x14) do not name the STM image, whose digest is {other}; they name"
    );
    let expected = [
        format!("list 0: {not_named} 1 other by SHA-256 and 0 by other algorithms"),
        "list 1: it does not name the digest; it names 1 other by SHA-256 and 0 by other algorithms".to_string(),
        format!("list 2: {not_named} 1 other by SHA-256 and 2 by other algorithms"),
        format!("list 3: element 1 (file offset 0x1d2) {unjudged}"),
    ];
    assert_eq!(reasons(b"other", lists), expected);
    assert_eq!(reasons(b"named", lists), [] as [String; 0], "list 0 permits");
}

/// The reasons for a changed copy of a signed list that permits.
fn reasons_of(name: &str, change: impl Fn(&mut Image)) -> Vec<String> {
    let mut image = stored_image(name);
    change(&mut image);
    finding::first(&image.parts(), &image.platform, MOST_PAGES).map_or(Vec::new(), |finding| finding.notes)
}

const UNVERIFIED: &str = "its signature does not verify (key of 256 bytes at file offset 0x62, signature at 0x162)";
const LOW_COUNTER: &str = "its counter 1 is below 2, which the record asks of list 0 (record offset 6)";
const UNNAMED: &str = "it does not name the digest; it names 1 other by SHA-256 and 0 by other algorithms";

/// What keeps a signed list from permitting is said all at once.
#[test]
fn reasons_about_a_signed_list() {
    fn low(image: &mut Image) {
        put(&mut image.record, 6, 2, 2);
    }
    fn unverified(image: &mut Image) {
        flip(image, SIGNED_END - 1);
    }
    fn unnamed(image: &mut Image) {
        let last = image.offset(0x105fff);
        image.window[last] ^= 1;
    }
    type Change = fn(&mut Image);
    let cases: [(&[Change], &[&str]); 8] = [
        (&[], &[]),
        (&[unverified], &[UNVERIFIED]),
        (&[low], &[LOW_COUNTER]),
        (&[unnamed], &[UNNAMED]),
        (&[low, unverified], &[LOW_COUNTER, UNVERIFIED]),
        (&[unnamed, unverified], &[UNNAMED, UNVERIFIED]),
        (&[unnamed, low], &[UNNAMED, LOW_COUNTER]),
        (&[unnamed, low, unverified], &[UNNAMED, LOW_COUNTER, UNVERIFIED]),
    ];
    for (changes, expected) in cases {
        let expected: Vec<String> =
            if expected.is_empty() { Vec::new() } else { vec![format!("list 0: {}", expected.join("; "))] };
        assert_eq!(reasons_of(SIGNED, |image| changes.iter().for_each(|change| change(image))), expected);
    }
}

/// The counter is the one that the record has for the list's number among all lists, and of an unsigned list none is asked.
#[test]
fn reasons_about_the_counter_of_a_later_list() {
    let none = "it does not name the digest; it names 0 other by SHA-256 and 0 by other algorithms";
    let low = "its counter 7 is below 256, which the record asks of list 2 (record offset 10)";
    let expected = [format!("list 0: {none}"), format!("list 1: {none}"), format!("list 2: {low}")];
    assert_eq!(reasons_of(SIGNED_BEHIND_TWO, |image| (0..8).for_each(|i| put(&mut image.record, 6 + 2 * i, 256, 2))), expected);
}

#[test]
fn reasons_about_elements_of_a_signed_list() {
    let said = |elements: &[Vec<u8>], stm: &[u8]| reasons(stm, |_| vec![signed(elements, 384)]).concat();
    let key_at = |at: u32| format!("key of 384 bytes at file offset {at:#x}, signature at {:#x}", at + 384);
    assert_eq!(
        said(&[element(0x13, b"")], b""),
        format!(
            "list 0: element 0 (file offset 0x2c) has type 0x13, as tboot's tools write custom elements, and only types 0x10, 3 and 0x14 are \
             judged (and it does not name the digest); its signature does not verify ({})",
            key_at(0x3c)
        )
    );
    assert_eq!(
        said(&[stm(&[[1; 32]])], b""),
        format!(
            "list 0: element 0 (file offset 0x2c) is an STM element (type 0x14), and no STM image was given (and it does not name the \
             digest); its signature does not verify ({})",
            key_at(0x60)
        )
    );
}

/// A list that does not permit has a reason: what keeps a list from permitting is looked for one by one, and none of it may be missed. These are all stored
/// captures and cases with STM images that are refused by 29.
#[test]
fn every_list_of_a_refusal_29_has_a_reason() {
    let in_captures = captures().into_iter().map(|(name, bytes)| (name, finding::first_in_capture(&bytes, capture::PLACES)));
    let of_case = |(name, case): (String, Vec<u8>)| {
        let (parts, platform, places) = split_lent(&case);
        (name, finding::first(&parts, &platform, places))
    };
    let mut refused = 0;
    for (name, finding) in in_captures.chain(lent_cases().into_iter().map(of_case)) {
        let finding = match finding {
            Some(finding) if finding.number == 29 => finding,
            _ => continue,
        };
        refused += 1;
        assert!(finding.found.starts_with(&format!("{} in the file", finding.notes.len())), "{name}: {finding:?}");
        for (i, note) in finding.notes.iter().enumerate() {
            let reason = note.strip_prefix(&format!("list {i}: ")).unwrap_or("");
            assert!(!reason.is_empty(), "{name}: {note:?}");
        }
    }
    assert!(refused >= LEAST_REFUSED_BY_29, "{refused}");
}

#[test]
fn what_is_expected_of_a_list() {
    let mut image = stored_image(SIGNED);
    flip(&mut image, SIGNATURE);
    let digest: String = sha256(&image.bytes()).iter().map(|byte| format!("{byte:02x}")).collect();
    let finding = finding::first(&image.parts(), &image.platform, MOST_PAGES).expect("a refusal");
    let expected = format!(
        "a list of types 0x10, 3 and 0x14 only, with a SHA-256 element of type 0x10 that names {digest} and, if it holds type 0x14, one of that \
         type that names the STM image; if it is signed, a signature that verifies and a counter not below the record's"
    );
    let found = "1 in the file, and none like that".to_string();
    let place = "the lists of the policy file, counted from 0".to_string();
    let notes = vec![format!("list 0: {UNVERIFIED}")];
    assert_eq!(finding, Finding { number: 29, place, expected, found, notes, field: None });
}

/// The times of the STM image's digest, of the check and of the finding, which take turns: the best of three each.
fn times(image: &Image) -> [Duration; 3] {
    let parts = image.parts();
    let mut pages = vec![0; MOST_PAGES];
    let mut best = [Duration::MAX; 3];
    for _ in 0..3 {
        let began = Instant::now();
        sha256(parts.stm);
        best[0] = best[0].min(began.elapsed());
        let began = Instant::now();
        bleiwurzel::answer(&parts, &image.platform, &mut pages);
        best[1] = best[1].min(began.elapsed());
        let began = Instant::now();
        finding::first(&parts, &image.platform, MOST_PAGES);
        best[2] = best[2].min(began.elapsed());
    }
    best
}

/// A long STM image takes no time where no list that could permit holds an STM element: neither in the check nor in the finding. Where such
/// lists do, it is hashed once.
#[test]
fn the_stm_image_is_hashed_where_it_must_be() {
    let image_of_stm = vec![5; MOST_STM];
    type Lists = fn([u8; 32]) -> Vec<Vec<u8>>;
    let unneeded: [(&str, Lists); 5] = [
        ("no STM element", |digest| vec![list(&[launch(0, &[digest])])]),
        ("a signed list that does not verify", |digest| vec![signed(&[launch(0, &[digest]), stm(&[[1; 32]])], 256)]),
        ("an element of type 0x13", |digest| vec![list(&[launch(0, &[digest]), stm(&[[1; 32]]), element(0x13, b"")])]),
        ("another MLE", |_| vec![list(&[launch(0, &[[1; 32]]), stm(&[[1; 32]])])]),
        ("a newer module", |digest| vec![list(&[launch(255, &[digest]), stm(&[[1; 32]])])]),
    ];
    let any = Image { stm: image_of_stm.clone(), ..image(&Shape::default()) };
    let images = unneeded.iter().map(|(name, lists)| (*name, with_stm(&image_of_stm, lists))).chain([("ANY", any)]);
    for (name, image) in images {
        let [once, check, finding] = times(&image);
        assert!(check < once / 4 && finding < once / 4, "{name}: check {check:?}, finding {finding:?}, the digest {once:?}");
    }
    let eight = with_stm(&image_of_stm, |digest| vec![list(&[launch(0, &[digest]), stm(&[[1; 32]])]); 8]);
    let [once, check, finding] = times(&eight);
    assert!(check < once * 3 && finding < once * 3, "eight lists: check {check:?}, finding {finding:?}, the digest {once:?}");
}

/// The largest image, and the same under a LIST policy that does not name it.
fn large() -> [Image; 2] {
    let image = image(&Shape { pages: MOST_PAGES, ..Shape::default() });
    let unnamed = with_lists(&image, &[list(&[launch(0, &[[0; 32]])])]);
    [image, unnamed]
}

/// The tool's words for both of them, each in a folder of its own.
fn large_written(name: &str) -> [Vec<String>; 2] {
    let folder = folder(name);
    large().map(|image| {
        let folder = folder.join(image.window.len().to_string());
        std::fs::create_dir_all(&folder).expect("a folder");
        written(&folder, &image)
    })
}

/// The digest that a refusal 29 shows is the check's own: the tool takes as long as for a permission, which hashes the image once.
#[test]
fn a_refusal_29_hashes_the_image_once() {
    let calls = large_written("hashes_the_image_once");
    let mut best = [Duration::MAX; 2];
    for _ in 0..7 {
        for (words, best) in calls.iter().zip(&mut best) {
            let began = Instant::now();
            run_with(&["check"], words, &[]);
            *best = (*best).min(began.elapsed());
        }
    }
    assert!(best[1] < best[0].mul_f64(1.5), "a permission takes {:?}, a refusal 29 {:?}", best[0], best[1]);
}

/// With the digest at hand and without it the finding says the same.
#[test]
fn the_digest_at_hand_is_that_of_the_image() {
    let [_, image] = large();
    let parts = image.parts();
    let (answer, digest) = bleiwurzel::answer_measured(&parts, &image.platform, &mut vec![0; MOST_PAGES]);
    assert_eq!((answer.number, answer.digest), (29, [0; 32]));
    let begin = image.offset(image.listed[0]);
    assert_eq!(digest, sha256(&image.window[begin..begin + MOST_PAGES * PAGE]));
    let at_hand = AtHand { lengths: Lengths::of(&parts), digest: Some(digest) };
    let found = finding::find_with(refused(29), &parts, &at_hand, &image.platform, MOST_PAGES);
    assert!(found.is_some() && found == finding::find(refused(29), &parts, &image.platform, MOST_PAGES));
}

/// The finding for 29 reads the image where it stands: the refusal needs no more memory than a permission, but for a fourth of the image.
#[test]
fn the_finding_for_29_does_not_copy_the_image() {
    let [permitted, refused] = large_written("does_not_copy");
    let within = |kibibytes: usize, words: &[String]| {
        let script = format!("ulimit -c 0; ulimit -v {kibibytes}; exec \"$0\" check \"$@\"");
        in_bash(&script, words).status.code()
    };
    let spare = MOST_PAGES * PAGE / 1024 / 4;
    let enough =
        (1..64).map(|n| n * spare).find(|limit| within(*limit, &permitted) == Some(OK)).expect("memory for a permission");
    assert_eq!(within(enough + spare, &refused), Some(REFUSED), "{enough} KiB are enough for a permission");
}

/// A module without end, on a platform that would take any: it is refused within an address space that could not hold it.
#[test]
fn a_module_without_end_is_not_held() {
    let folder = folder("a_module_without_end");
    let mut words = written(&folder, &image(&Shape::default()));
    words[5] = "/dev/zero".to_string();
    let (small, large) = ("1048577 bytes or more", "0x20000000 + 0xe0000000 = 0x100000000 or more");
    for (capacity, found) in [("0x100000", small), ("0xffffffffffffffff", large)] {
        let words: Vec<&str> = words.iter().map(String::as_str).chain(["--acram-capacity", capacity]).collect();
        let ran = ran(in_bash("ulimit -v 400000; exec \"$0\" check \"$@\"", &words));
        assert_eq!((ran.status, ran.err.as_str()), (REFUSED, ""), "{capacity}");
        assert!(ran.out.starts_with("refused 6, "), "{capacity}: {}", ran.out);
        assert!(ran.out.contains(&format!("found     {found}\n")), "{capacity}: {}", ran.out);
    }
}

/// A long module for which there is no room is no answer, and no abort: one with a wrong header, and one that states its length.
#[test]
fn a_module_without_room_is_no_answer() {
    let folder = folder("a_module_without_room");
    let length = 3u32 << 30;
    for wrong in [true, false] {
        let mut image = image(&Shape::default());
        put(&mut image.sinit, 24, u64::from(length / 4), 4);
        if wrong {
            image.sinit[0] = 0;
        }
        let words = written(&folder, &image);
        lengthen(&folder.join("sinit.bin"), u64::from(length));
        let words: Vec<&str> = words.iter().map(String::as_str).chain(["--acram-capacity", "0xffffffff"]).collect();
        let ran = ran(in_bash("ulimit -c 0; ulimit -v 400000; exec \"$0\" check \"$@\"", &words));
        assert_eq!((ran.status, ran.out.as_str()), (MISUSE, ""), "{wrong}");
        assert!(ran.err.contains("sinit.bin") && ran.err.contains("memory"), "{wrong}: {}", ran.err);
    }
}

/// What is found of a module whose header has another number at an offset, cut to so many bytes.
fn of_module(header: Header, at: usize, number: u64, bytes: usize) -> (u32, String, String, String) {
    let mut image = Image { sinit: module_with(header, 1024), ..image(&Shape::default()) };
    put(&mut image.sinit, at, number, 4);
    image.sinit.truncate(bytes);
    let finding = finding::first(&image.parts(), &image.platform, MOST_PAGES).expect("a refusal");
    (finding.number, finding.place, finding.expected, finding.found)
}

/// Which edition the header is judged by, and of which one the number is that was found.
#[test]
fn the_edition_of_a_module_is_named() {
    let (old, new) = (HEADER_0_0, HEADER_3_0);
    let length = "length of the SINIT module";
    let cases = [
        (of_module(new, 8, 0x3_0000, 896), 6, length, "at least 960 bytes, with header version 3.0", "896 bytes"),
        (of_module(old, 8, 0, 640), 6, length, "at least 704 bytes", "640 bytes"),
        (of_module(new, 8, 0x300, 640), 6, length, "at least 704 bytes", "640 bytes"),
        (of_module(new, 8, 0x3_0000, 12), 6, length, "at least 960 bytes, with header version 3.0", "12 bytes"),
        (of_module(new, 8, 0x3_0000, 11), 6, length, "at least 704 bytes", "11 bytes"),
        (
            of_module(new, 8, 0x300, 1024),
            7,
            "version in the module's header (module offset 0x8)",
            "0x00000000 (0.0) or 0x00030000 (3.0)",
            "0x00000300",
        ),
        (
            of_module(new, 4, 161, 1024),
            7,
            "HeaderLen in the module's header (module offset 0x4)",
            "224 (0xe0), as header version 3.0 has it",
            "161 (0xa1), as header version 0.0 has it",
        ),
        (
            of_module(new, 4, 320, 1024),
            7,
            "HeaderLen in the module's header (module offset 0x4)",
            "224 (0xe0), as header version 3.0 has it",
            "320 (0x140)",
        ),
        (
            of_module(old, 120, 96, 1024),
            7,
            "KeySize in the module's header (module offset 0x78)",
            "64 (0x40), as header version 0.0 has it",
            "96 (0x60), as header version 3.0 has it",
        ),
    ];
    for ((number, place, expected, found), own, at, asked, met) in cases {
        assert_eq!((number, place.as_str(), expected.as_str(), found.as_str()), (own, at, asked, met));
    }
}

/// What of a module is not held does not matter: the number is that of the library over all its bytes, and a rule before the module's comes first.
#[test]
fn the_answer_is_that_of_the_whole_module() {
    let folder = folder("the_whole_module");
    let good = image(&Shape::default());
    let cases: [(&str, fn(&mut Image), u32); 10] = [
        ("as it is", |_| (), 0),
        ("header version 3.0", |image| image.sinit = module_with(HEADER_3_0, 960), 0),
        (
            "header version 3.0 and an information table cut off",
            |image| image.sinit = module_with(HEADER_3_0, 960)[..896].to_vec(),
            6,
        ),
        ("header version 3.0 in a module of 0.0", |image| put(&mut image.sinit, 8, 0x3_0000, 4), 6),
        ("64 bytes more", |image| image.sinit.extend([0xa5; 64]), 7),
        ("1 byte more", |image| image.sinit.push(0xa5), 6),
        ("a smaller size in the header", |image| put(&mut image.sinit, 24, 1, 4), 7),
        ("a larger size in the header", |image| put(&mut image.sinit, 24, 0xffff_ffff, 4), 7),
        ("100 bytes", |image| image.sinit.truncate(100), 6),
        ("no bytes", |image| image.sinit.clear(), 6),
    ];
    for (name, change, number) in cases {
        let mut image = good.clone();
        change(&mut image);
        let given = bleiwurzel::answer(&image.parts(), &image.platform, &mut vec![0; MOST_PAGES]).number;
        assert_eq!(given, number, "{name}");
        let ran = run_with(&["check"], &written(&folder, &image), &["--json"]);
        assert!(ran.out.contains(&format!("\"number\": {number},")), "{name}: {}", ran.out);
    }
    let mut words = written(&folder, &good);
    words[5] = "/dev/zero".to_string();
    let ran = run_with(&["check"], &words, &["--window-base", "1"]);
    assert!(ran.out.starts_with("refused 1, "), "{}", ran.out);
}
