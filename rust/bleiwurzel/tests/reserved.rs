//! Reserved ranges as the tool takes them, by flags, by the platform file and by a memory map, and as it shows those of a capture.

mod common;
#[path = "common/json.rs"]
mod json;
#[path = "common/tool.rs"]
mod tool;

use bleiwurzel::{capture, MOST_RESERVED};
use common::*;
use json::is_json;
use std::path::Path;
use tool::*;

/// The words for `check` of an image of the pages 0x103000 and 0x104000, with which its window ends, and its platform's ranges in the file.
fn words(folder: &Path, ranges: &[(u64, u64)]) -> Vec<String> {
    let mut image = image(&Shape::default());
    image.reserve(ranges);
    written(folder, &image)
}

fn joined(text: &str) -> String {
    text.split_whitespace().collect::<Vec<_>>().join(" ")
}

/// Holds a call to status 0: permitted, shown or written.
#[track_caller]
fn yes(ran: &Ran) {
    assert_eq!((ran.status, ran.err.as_str()), (OK, ""), "{}", ran.out);
}

/// Holds an answer to a refusal with this number, of which this was expected.
#[track_caller]
fn refused(ran: &Ran, number: u32, expected: &str) {
    let said = joined(&ran.out);
    assert_eq!((ran.status, ran.err.as_str()), (REFUSED, ""), "{said}");
    assert!(said.starts_with(&format!("refused {number}, ")) && said.contains(expected), "{said}");
}

#[track_caller]
fn misused(ran: &Ran, message: &str) {
    assert_eq!((ran.status, ran.out.as_str()), (MISUSE, ""), "{}", ran.err);
    assert!(ran.err.contains(message) && ran.err.lines().count() == 2, "{}", ran.err);
}

#[test]
fn by_flags() {
    let words = words(&folder("reserved_by_flags"), &[]);
    let check = |more: &[&str]| run_with(&["check"], &words, more);
    yes(&check(&["--reserved", "0x105000+0x1000"]));
    yes(&check(&["--reserved", "0x104800 + 0"]));
    refused(&check(&["--reserved", "0x104fff+1"]), 17, "expected clear of reserved range 0, 0x104fff to 0x104fff found");
    refused(&check(&["--reserved=1064960+16"]), 17, "clear of reserved range 0, 0x104000 to 0x10400f");
    let twice = ["--reserved", "0x105000+1", "--reserved=0x104000+1"];
    refused(&check(&twice), 17, "clear of reserved range 1, 0x104000 to 0x104000");
    let high = "end of reserved range 0: its base plus its size expected at most 2^52";
    refused(&check(&["--reserved", "0x10000000000001+0"]), 1, high);
    misused(&check(&["--reserved", "0x104000"]), "--reserved: '0x104000' is no range; write its base, + and its size in bytes");
    misused(&check(&["--reserved", "0x104000+1k"]), "--reserved: '1k' is no number");
    misused(&check(&["--reserved", "18446744073709551616+1"]), "--reserved: '18446744073709551616' does not fit into 64 bits");
    misused(&check(&["--reserved"]), "a value is missing after --reserved");
    misused(&run(&["check", "--window", "-", "--reserved", "-"]), "--reserved: '-' is no range");
    misused(&check(&["--dpr-size", "0", "--dpr-size", "0"]), "--dpr-size is given twice");
}

/// The ranges of the flags stand behind those of the file.
#[test]
fn by_the_file_and_by_flags() {
    let folder = folder("reserved_by_the_file");
    let check = |ranges: &[(u64, u64)], more: &[&str]| run_with(&["check"], &words(&folder, ranges), more);
    yes(&check(&[(0x105000, 1), (0x105000, 1)], &[]));
    refused(&check(&[(0x105000, 1), (0x104000, 1)], &[]), 17, "clear of reserved range 1, 0x104000 to 0x104000");
    let flag = ["--reserved", "0x103000+1"];
    refused(&check(&[(0x105000, 1), (0x106000, 1)], &flag), 17, "clear of reserved range 2, 0x103000 to 0x103000");
    let free = [(0x105000, 1); MOST_RESERVED];
    yes(&check(&free, &[]));
    refused(&check(&free[1..], &flag), 17, "clear of reserved range 15, 0x103000 to 0x103000");
    let over = "a platform has at most 16 reserved ranges, and 17 are given; join those";
    misused(&check(&free, &["--reserved", "0x105000+1"]), over);
    let file = folder.join("platform.txt");
    let text = std::fs::read_to_string(&file).expect("a platform file") + "reserved = 0x105000+1\n";
    std::fs::write(&file, text).expect("a longer platform file");
    let words = ["check", "--platform", &*file.to_string_lossy()];
    misused(&run(&words), over);
    std::fs::write(&file, "\nreserved = 0x105000\n").expect("a platform file");
    misused(&run(&words), "line 2: '0x105000' is no range");
    std::fs::write(&file, "reserve = 1+1\n").expect("a platform file");
    misused(&run(&words), "there is no key 'reserve'; the keys are window_base, ");
    assert!(run(&words).err.contains(", revision, reserved\n"));
}

/// An answer says how many ranges counted: a permission to people where there are some, and every answer to programs.
#[test]
fn how_many_ranges_counted() {
    let folder = folder("how_many_ranges_counted");
    let output = folder.join("made.cap").to_string_lossy().into_owned();
    let image = "  image   2 pages, in linear order\n          0x0000000000103000 to 0x0000000000104fff  2 pages\n";
    let list = "  list    none: the policy is ANY\n";
    let free = [(0x105000, 1), (0, 0), (0x105000, 1)];
    for (count, clear) in [(0, ""), (1, "  clear   of 1 reserved range\n"), (3, "  clear   of 3 reserved ranges\n")] {
        let words = words(&folder, &free[..count]);
        let _ = std::fs::remove_file(&output);
        yes(&run_with(&["capture", "make"], &words, &["--output", &output]));
        let more = |more| [run_with(&["check"], &words, more), run_with(&["check", "--capture", &output], &[], more)];
        for (text, json) in more(&[]).iter().zip(more(&["--json"])) {
            yes(text);
            assert!(text.out.starts_with(&format!("permitted\n\n{image}{clear}{list}")), "{}", text.out);
            assert!(is_json(&json.out) && json.out.ends_with(&format!("\", \"reserved\": {count}}}\n")), "{}", json.out);
        }
        let refused = run_with(&["check"], &words, &["--dpr-size", "0", "--json"]).out;
        assert!(is_json(&refused) && refused.starts_with("{\"answer\": \"refused\", \"number\": 20, "), "{refused}");
        assert!(refused.ends_with(&format!("], \"reserved\": {count}}}\n")), "{refused}");
    }
    std::fs::write(&output, "no capture").expect("a file");
    let none = run(&["check", "--capture", &output, "--json"]).out;
    assert!(is_json(&none) && none.contains(" \"number\": 30, ") && none.ends_with("], \"reserved\": null}\n"), "{none}");
}

#[test]
fn not_with_a_capture() {
    let capture = stored("00-any-example.cap");
    for flag in ["--reserved", "--reserved-from"] {
        misused(&run(&["check", "--capture", &capture, flag, "1+1"]), &format!("leave out {flag}"));
    }
}

/// What `capture make` writes, `capture show` shows and `check` takes are the same ranges.
#[test]
fn in_captures() {
    let folder = folder("reserved_in_captures");
    let path = |name: &str| folder.join(name).to_string_lossy().into_owned();
    let output = path("made.cap");
    let words = words(&folder, &[(0x105000, 0x800)]);
    let more = ["--reserved", "0xfffff+1", "--output", &output];
    yes(&run_with(&["capture", "make"], &words, &more));
    yes(&run(&["check", "--capture", &output]));
    let shown = run(&["capture", "show", &output]);
    yes(&shown);
    let bytes = 77 + 2 * 16 + 5 * 4096 + 124 + 768 + 70;
    assert!(shown.out.starts_with(&format!("# capture, version 2, {bytes} bytes\n")), "{}", shown.out);
    assert!(
        shown.out.contains("\nrevision = 0x5\nreserved = 0x105000+0x800\nreserved = 0xfffff+0x1\n# parts\n"),
        "{}",
        shown.out
    );
    assert!(shown
        .out
        .contains("# window         20480 bytes at file offset 109\n# heap             124 bytes at file offset 20589\n"));
    let json = run(&["capture", "show", &output, "--json"]).out;
    let ranges = "\"reserved\": [{\"base\": \"0x105000\", \"size\": \"0x800\"}, {\"base\": \"0xfffff\", \"size\": \"0x1\"}]}";
    assert!(is_json(&json) && json.starts_with("{\"version\": 2, ") && json.contains(ranges), "{json}");
    // What is shown is a platform file: with it the same capture is made.
    std::fs::write(path("shown.txt"), &shown.out).expect("the shown platform");
    let again = ["--platform", &*path("shown.txt"), "--output", &*path("again.cap")];
    yes(&run_with(&["capture", "make"], &words[..8], &again));
    assert_eq!(std::fs::read(path("again.cap")).expect("a capture"), std::fs::read(&output).expect("a capture"));
    let touching = ["--reserved", "0x104000+1", "--output", &*path("touching.cap")];
    yes(&run_with(&["capture", "make"], &words, &touching));
    refused(&run(&["check", "--capture", &path("touching.cap")]), 17, "clear of reserved range 1, 0x104000 to 0x104000");
}

/// Without ranges a capture has version 1; one of version 2 without ranges is shown as what it is.
#[test]
fn captures_without_ranges() {
    let folder = folder("captures_without_ranges");
    let file = folder.join("some.cap");
    let image = image(&Shape::default());
    let mut bytes = capture::make(&image.parts(), &image.platform).expect("a capture");
    let show = |bytes: &[u8]| {
        std::fs::write(&file, bytes).expect("a capture");
        ["--json", "--"].map(|word| run(&["capture", "show", word, &file.to_string_lossy()]).out)
    };
    let [json, text] = show(&bytes);
    assert!(json.contains("{\"version\": 1, ") && json.contains("\"reserved\": []}"), "{json}");
    assert!(text.starts_with("# capture, version 1, ") && !text.contains("reserved"), "{text}");
    assert!(text.contains(" at file offset 75\n"), "{text}");
    bytes[3] = 2;
    bytes.splice(59..59, [0, 0]);
    let [json, text] = show(&bytes);
    assert!(json.contains("{\"version\": 2, ") && json.contains("\"reserved\": []}"), "{json}");
    assert!(text.starts_with("# capture, version 2, ") && text.contains(" at file offset 77\n"), "{text}");
    yes(&run(&["check", "--capture", &file.to_string_lossy()]));
    bytes[59] = 17;
    std::fs::write(&file, &bytes).expect("no capture");
    let count = "where the count of reserved ranges, offset 59 expected at most 16 found 17";
    refused(&run(&["capture", "show", &file.to_string_lossy()]), 30, count);
    refused(&run(&["check", "--capture", &file.to_string_lossy()]), 30, count);
}

/// Usable memory around the window, and reserved memory up to it, behind it and far from it.
const IOMEM: &str = "\
00000000-00000fff : Reserved
00001000-0009fbff : System RAM
0009fc00-000fffff : Reserved
  000f0000-000fffff : System ROM
00100000-00104fff : System RAM
  00103000-00104fff : Kernel code
00105000-001fffff : Reserved
7ffdc000-7fffffff : Reserved
fec00000-fec003ff : IOAPIC 0
";

/// The same as the kernel's log has it, with the second page of the image reserved by two ranges that adjoin.
const E820: &str = "\
[    0.000000] Linux version 6.1.0 (gcc: 12) : Reserved
[    0.000000] BIOS-e820: [mem 0x0000000000000000-0x000000000009fbff] usable
[    0.000000] BIOS-e820: [mem 0x000000000009fc00-0x000000000009ffff] reserved
[    0.000000] BIOS-e820: [mem 0x0000000000100000-0x0000000000103fff] usable
BIOS-e820: [mem 0x0000000000104000-0x00000000001047ff] ACPI NVS
kernel: BIOS-e820: [mem 0x0000000000104800-0x00000000001fffff] reserved
[    0.000390] e820: update [mem 0x00103000-0x00103fff] usable ==> reserved
";

#[test]
fn from_a_memory_map() {
    let folder = folder("reserved_from_a_memory_map");
    let words = words(&folder, &[]);
    let map = folder.join("map.txt").to_string_lossy().into_owned();
    let check = |text: &str, more: &[&str]| {
        std::fs::write(&map, text).expect("a memory map");
        run_with(&["check"], &words, &[&["--reserved-from", &map], more].concat())
    };
    yes(&check(IOMEM, &[]));
    let used = IOMEM.replace("00104fff : System RAM\n", "00103fff : System RAM\n00104000-00104fff : ACPI Tables\n");
    refused(&check(&used, &[]), 17, "clear of reserved range 0, 0x104000 to 0x104fff");
    refused(&check(E820, &[]), 17, "clear of reserved range 0, 0x104000 to 0x1fffff");
    refused(&check(E820, &["--reserved", "0x105000+1"]), 17, "clear of reserved range 1, 0x104000 to 0x1fffff");
    let usable = E820.replace("ACPI NVS", "usable");
    refused(&check(&usable, &[]), 17, "clear of reserved range 0, 0x104800 to 0x1fffff");
    yes(&check(&usable.replace("] reserved", "] usable"), &[]));
    let given = ["--reserved-from", "-"].into_iter().chain(words.iter().map(String::as_str));
    let given: Vec<&str> = ["check"].into_iter().chain(given).collect();
    assert_eq!(ran(run_on(E820.as_bytes(), &given)).out, check(E820, &[]).out);
    misused(&check("", &[]), "has no line of a memory map; give /proc/iomem");
    misused(&check(&words.join("\n"), &[]), "has no line of a memory map; give /proc/iomem");
    let hidden: String =
        IOMEM.lines().map(|line| format!("00000000-00000000{}\n", &line[line.find(" : ").expect("a name")..])).collect();
    misused(&check(&hidden, &[]), "Linux shows them to root alone, so read it as root");
    let missing = run_with(&["check"], &words, &["--reserved-from", "/nowhere/iomem"]);
    misused(&missing, "there is no file '/nowhere/iomem' for the memory map");
    let endless = run_with(&["check"], &words, &["--reserved-from", "/dev/zero"]);
    misused(&endless, "'/dev/zero' is no memory map: it has over 16777216 bytes");
}

/// Memory that all of the window is a part of.
const USABLE: &str = "00000000-7fffffff : System RAM\n";

/// What a map does not list as usable is reserved, and what it lists as reserved in some other form is not lost.
#[test]
fn from_a_memory_map_with_gaps() {
    let folder = folder("reserved_from_a_map_with_gaps");
    let words = words(&folder, &[]);
    let map = folder.join("map.txt").to_string_lossy().into_owned();
    let check = |text: &str| {
        std::fs::write(&map, text).expect("a memory map");
        run_with(&["check"], &words, &["--reserved-from", &map])
    };
    yes(&check(USABLE));
    for text in ["fec00000-fec003ff : IOAPIC 0\n", "00000000-0009fbff : System RAM\n"] {
        refused(&check(text), 17, "clear of reserved range 0, 0x100000 to 0x104fff");
    }
    refused(&check("00000000-00103fff : System RAM\n"), 17, "clear of reserved range 0, 0x104000 to 0x104fff");
    for (line, last) in [
        (" 00104000-001fffff : Reserved", "0x1fffff"),
        ("00104000-001fffff: Reserved", "0x1fffff"),
        ("  00104000-00104fff : Reserved", "0x104fff"),
    ] {
        let expected = format!("clear of reserved range 0, 0x104000 to {last} ");
        refused(&check(&format!("{USABLE}{line}\n")), 17, &expected);
    }
    let old = " BIOS-e820: 0000000000104000 - 0000000000105000 (reserved)";
    let message =
        "map.txt', line 2: 'BIOS-e820: 0000000000104000 - 0000000000105000 (reserved)' is no whole line of a memory map";
    misused(&check(&format!("{USABLE}{old}\n")), message);
    let cut = E820.find("47ff] ACPI").expect("the line of the second page");
    misused(&check(&E820[..cut]), "map.txt', line 5: 'BIOS-e820: [mem 0x0000000000104000-0x000000000010' is no whole line");
}

/// What is outside the window is left out: every table and page is inside. What is inside is as much as a platform has place for.
#[test]
fn more_ranges_than_a_platform_has() {
    let folder = folder("more_ranges_than_a_platform_has");
    let spread = spread(BASE);
    let map = folder.join("map.txt").to_string_lossy().into_owned();
    let check = |image: &Image, text: &str| {
        std::fs::write(&map, USABLE.to_string() + text).expect("a memory map");
        run_with(&["check"], &written(&folder, image), &["--reserved-from", &map])
    };
    // Every other byte of a free page, and as many ranges outside the window, which ends at 0x130000.
    let bytes =
        |from: u64, count: u64| -> String { (0..count).map(|k| format!("{0:x}-{0:x} : Reserved\n", from + 2 * k)).collect() };
    let outside = bytes(0x1000, 20) + &bytes(0x13_0000, 20);
    yes(&check(&spread, &outside));
    yes(&check(&spread, &(bytes(0x10_a000, 16) + &outside)));
    let over = "a platform has at most 16 reserved ranges, and with those of";
    let ran = check(&spread, &bytes(0x10_a000, 17));
    misused(&ran, over);
    misused(&ran, "map.txt' in the window there are 17; dump a smaller window");
    let mut given = spread;
    given.reserve(&[(0, 0), (0, 0)]);
    yes(&check(&given, &bytes(0x10_a000, 14)));
    misused(&check(&given, &bytes(0x10_a000, 15)), "in the window there are 17; ");
    // The byte before the window and the one behind it, and those next to them.
    let ends = |first: u64, last: u64| bytes(0x10_a000, 15) + &format!("{first:x}-{first:x} : a\n{last:x}-{last:x} : b\n");
    let mut none = given.clone();
    none.reserve(&[]);
    yes(&check(&none, &ends(0xf_ffff, 0x12_ffff)));
    yes(&check(&none, &ends(0x10_0000, 0x13_0000)));
    misused(&check(&none, &ends(0x10_0000, 0x12_ffff)), "in the window there are 17; ");
}

/// A capture keeps the ranges that were taken from a memory map.
#[test]
fn a_capture_by_a_memory_map() {
    let folder = folder("a_capture_by_a_memory_map");
    let (map, output) = (folder.join("map.txt"), folder.join("made.cap").to_string_lossy().into_owned());
    std::fs::write(&map, E820).expect("a memory map");
    let more = ["--reserved-from", &*map.to_string_lossy(), "--output", &output];
    yes(&run_with(&["capture", "make"], &words(&folder, &[]), &more));
    let shown = run(&["capture", "show", &output]).out;
    assert!(shown.contains("\nreserved = 0x104000+0xfc000\n# parts\n"), "{shown}");
    refused(&run(&["check", "--capture", &output]), 17, "clear of reserved range 0, 0x104000 to 0x1fffff");
}

/// Who takes a memory map is told where a good image is refused.
#[test]
fn what_the_help_says_of_a_memory_map() {
    let help = joined(&run(&["check", "--help"]).out);
    for said in [
        "and then an image in the DPR is refused with 17",
        "may list the image's own place as reserved, and then a good image is refused with 17",
    ] {
        assert!(help.contains(said), "{help}");
    }
}
