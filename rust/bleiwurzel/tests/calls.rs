//! How the tool is called: exit statuses where nothing can be written, standard input and output as `-`, the end of the flags, names of any
//! bytes, and what is left where a capture cannot be written whole.

mod common;
#[path = "common/json.rs"]
mod json;
#[path = "common/tool.rs"]
mod tool;

use bleiwurzel::sha256;
use common::*;
use std::ffi::{OsStr, OsString};
use std::fs::{self, File};
use std::os::unix::ffi::{OsStrExt, OsStringExt};
use std::path::Path;
use std::process::Command;
use tool::*;

const PERMITTED: &str = "00-any-example.cap";

#[test]
fn status_0_of_check_is_permitted_and_nothing_else() {
    let capture = stored(PERMITTED);
    assert_eq!(run(&["check", "--capture", &capture]).status, OK);
    let calls: [&[&str]; 4] =
        [&["check", "-h"], &["check", "--help"], &["check", "--capture", &capture, "-h"], &["check", "--json", "--help"]];
    for words in calls {
        let ran = run(words);
        assert_eq!((ran.status, ran.err.as_str()), (MISUSE, ""), "{words:?}");
        assert!(ran.out.starts_with("bleiwurzel check: "), "{words:?}: {}", ran.out);
    }
}

/// The status of a call with these files as standard output and standard error.
fn status_with(out: &str, err: &str, words: &[&str]) -> Option<i32> {
    let open = |path: &str| File::options().write(true).open(path).expect("a device");
    tool().args(words).stdout(open(out)).stderr(open(err)).status().expect("the tool runs").code()
}

#[test]
fn what_cannot_be_written_is_no_answer() {
    let (full, none) = ("/dev/full", "/dev/null");
    let permitted: &[&str] = &["check", "--capture", &stored(PERMITTED)];
    assert_eq!(status_with(none, full, permitted), Some(OK));
    for words in [permitted, &["policy", "--help"], &["refusals"], &["check", "--help"]] {
        assert_eq!(status_with(full, none, words), Some(MISUSE), "{words:?}");
        assert_eq!(status_with(full, full, words), Some(MISUSE), "{words:?}");
    }
    for words in [&["chekc"][..], &[], &["check"], &["policy", "/nowhere"], &["capture", "make", "--output", "/nowhere/x"]] {
        assert_eq!(status_with(none, full, words), Some(MISUSE), "{words:?}");
        assert_eq!(in_bash("\"$0\" \"$@\" 2>&-", words).status.code(), Some(MISUSE), "{words:?}");
    }
}

/// A reader that has gone away changes no status, except where a capture is written to it.
#[test]
fn a_reader_that_has_gone_away() {
    let folder = folder("a_reader_that_has_gone_away");
    let words = written(&folder, &image(&Shape::default()));
    let make: Vec<&str> = ["capture", "make", "--output", "-"].into_iter().chain(words.iter().map(String::as_str)).collect();
    let refused = stored("30-74-bytes.cap");
    for (words, status) in [(&["refusals"][..], OK), (&["check", "--capture", &refused], REFUSED), (&make, MISUSE)] {
        let ran = ran(in_bash("{ sleep 0.2; \"$0\" \"$@\"; echo $? >&2; } | true", words));
        assert_eq!(ran.err.lines().last(), Some(status.to_string().as_str()), "{words:?}");
    }
}

#[test]
fn standard_input_is_a_file_everywhere() {
    let folder = folder("standard_input_is_a_file_everywhere");
    let capture = fs::read(stored(PERMITTED)).expect("a capture");
    let named = run(&["check", "--capture", &stored(PERMITTED)]);
    assert_eq!(ran(run_on(&capture, &["check", "--capture", "-"])).out, named.out);
    assert_eq!(ran(run_on(&capture, &["check", "--capture=-"])).out, named.out);
    assert_eq!(ran(run_on(&capture, &["capture", "show", "-"])).out, run(&["capture", "show", &stored(PERMITTED)]).out);
    let policy = top().join("crates/policy_show/data/plain-0x201.data").to_string_lossy().into_owned();
    assert_eq!(ran(run_on(&fs::read(&policy).expect("a file"), &["policy", "-"])).out, run(&["policy", &policy]).out);
    let mut parts = Image { stm: b"an STM image".to_vec(), ..image(&Shape::default()) };
    parts = with_lists(&parts, &[list(&[launch(0, &[sha256(&parts.bytes())]), stm(&[sha256(&parts.stm)])])]);
    let words = written(&folder, &parts);
    let whole = run_with(&["check"], &words, &[]);
    assert_eq!((whole.status, words.len()), (OK, 12));
    for at in (1..words.len()).step_by(2) {
        let bytes = fs::read(&words[at]).expect("a part");
        let mut words: Vec<&str> = ["check"].into_iter().chain(words.iter().map(String::as_str)).collect();
        words[at + 1] = "-";
        assert_eq!(ran(run_on(&bytes, &words)).out, whole.out, "{words:?}");
    }
    let directory = ran(in_bash("\"$0\" policy - < /", &[] as &[&str]));
    assert!(
        directory.status == MISUSE && directory.err.contains("cannot read standard input for the policy file"),
        "{}",
        directory.err
    );
    let twice = run(&["check", "--capture", "x", "--window", "-", "--heap", "-"]);
    assert_eq!(twice.status, MISUSE);
    assert!(twice.err.contains("--window, --heap are all -"), "{}", twice.err);
}

/// Standard input or output that is closed is no file without bytes and no place to write to, as /dev/null is.
#[test]
fn a_closed_stream_is_no_file() {
    let folder = folder("a_closed_stream_is_no_file");
    let words = written(&folder, &image(&Shape::default()));
    let (parts, of_input) = (words.join(" "), words[2..].join(" "));
    let said = |script: &str| ran(Command::new("sh").args(["-c", script, "sh", TOOL]).output().expect("a shell runs"));
    let write = format!("policy write -o {0}/p.data --record {0}/p.pol -", folder.display());
    let check = format!("check {of_input} --window -");
    for command in ["check --capture -", "capture show -", "policy -", "policy show --as-description -", &write, &check] {
        let ran = said(&format!("\"$1\" {command} <&-"));
        assert_eq!((ran.status, ran.out.as_str()), (MISUSE, ""), "{command}");
        assert!(ran.err.contains("cannot read standard input for the ") && ran.err.contains(": it is closed\n"), "{}", ran.err);
        assert_eq!(said(&format!("\"$1\" {command} </dev/null")).status, REFUSED, "{command}");
    }
    let make = format!("\"$1\" capture make {parts} --output -");
    let ran = said(&format!("{make} >&-"));
    assert_eq!(ran.status, MISUSE);
    assert!(ran.err.contains("cannot write to standard output: it is closed\n"), "{}", ran.err);
    assert_eq!(said(&format!("{make} >/dev/null <&-")).status, OK, "what is not read may be closed");
}

#[test]
fn a_capture_to_standard_output() {
    let folder = folder("a_capture_to_standard_output");
    let words = written(&folder, &image(&Shape::default()));
    let output = folder.join("made.cap");
    assert_eq!(run_with(&["capture", "make"], &words, &["--output", &output.to_string_lossy()]).status, OK);
    let words: Vec<&str> =
        ["capture", "make"].into_iter().chain(words.iter().map(String::as_str)).chain(["--output", "-"]).collect();
    let made = run_on(b"", &words);
    assert_eq!((made.status.code(), made.stderr.as_slice()), (Some(OK), &b""[..]));
    assert!(made.stdout == fs::read(&output).expect("the file"), "standard output has the file's bytes and nothing else");
    assert_eq!(run(&[&words[..], &["--json"]].concat()).status, MISUSE);
    let unread = in_bash("\"$0\" \"$@\" > /dev/full", &words);
    assert_eq!(ran(unread).status, MISUSE, "what was not written is not said to be");
}

#[test]
fn two_dashes_end_the_flags() {
    let folder = folder("two_dashes_end_the_flags");
    for name in ["--json", "-h", "--", "-x.cap"] {
        fs::copy(stored(PERMITTED), folder.join(name)).expect("a copy");
        let shown = tool().args(["capture", "show", "--", name]).current_dir(&folder).output().expect("the tool runs");
        let shown = ran(shown);
        assert_eq!((shown.status, shown.err.as_str()), (OK, ""), "{name}");
        assert!(shown.out.starts_with("# capture, version 1"), "{name}: {}", shown.out);
    }
    let ran = run(&["check", "--", "--capture"]);
    assert!(ran.status == MISUSE && ran.err.contains("'--capture' stands alone"), "{}", ran.err);
    // Before a command there are no flags that it could end, and the help does not say so.
    for words in [&["--", "check"][..], &["capture", "--", "show"]] {
        assert_eq!(run(words).status, MISUSE, "{words:?}");
    }
    let help = run(&["--help"]).out.split_whitespace().collect::<Vec<_>>().join(" ");
    assert!(help.contains("Behind the command (of captures behind make or show) -- ends its flags."), "{help}");
}

/// A name with a control sequence, a line end, a quote and bytes that are no text.
const NAME: &[u8] = b"it's \x1b[2J\n\xff\xc2\x9b\\.cap";

#[test]
fn names_of_any_bytes() {
    let folder = folder("names_of_any_bytes");
    let path = folder.join(OsStr::from_bytes(NAME));
    fs::copy(stored(PERMITTED), &path).expect("a copy");
    let mut joined = OsString::from("--capture=");
    joined.push(&path);
    for words in [&[OsStr::new("check"), OsStr::new("--capture"), path.as_os_str()][..], &[OsStr::new("check"), &joined]] {
        assert_eq!(ran(tool().args(words).output().expect("the tool runs")).status, OK);
    }
    fs::remove_file(&path).expect("the copy goes");
    let mut flag = b"--x\x1b[2J=".to_vec();
    flag.extend_from_slice(NAME);
    let flag = OsString::from_vec(flag);
    let name = path.as_os_str();
    let calls: [&[&OsStr]; 7] = [
        &[OsStr::new("check"), OsStr::new("--capture"), name],
        &[OsStr::new("check"), name],
        &[OsStr::new("check"), &flag],
        &[OsStr::new("policy"), name],
        &[OsStr::new("refusals"), name],
        &[OsStr::new("capture"), name],
        &[name],
    ];
    for words in calls {
        let ran = ran(tool().args(words).output().expect("the tool runs"));
        assert_eq!((ran.status, ran.out.as_str()), (MISUSE, ""), "{words:?}");
        assert!(plain(&ran.err, 2), "{words:?}: {:?}", ran.err);
    }
}

/// Whether a text has no control character but the ends of its lines, of which there are so many.
fn plain(text: &str, lines: usize) -> bool {
    text.lines().count() == lines && !text.chars().any(|c| c.is_control() && c != '\n')
}

/// All that `capture make` says of a file's name.
#[test]
fn the_name_of_a_capture_that_is_made() {
    let folder = folder("the_name_of_a_capture");
    let words = written(&folder, &image(&Shape::default()));
    let path = folder.join(OsStr::from_bytes(NAME));
    let words: Vec<&OsStr> = ["capture", "make"]
        .into_iter()
        .map(OsStr::new)
        .chain(words.iter().map(OsStr::new))
        .chain([OsStr::new("--output")])
        .collect();
    let make = |script: &str, path: &Path| ran(in_bash(script, &[&words[..], &[path.as_os_str()]].concat()));
    let made = make("exec \"$0\" \"$@\"", &path);
    assert!(made.status == OK && made.out.starts_with("wrote ") && plain(&made.out, 2), "{:?}", made.out);
    let there = make("exec \"$0\" \"$@\"", &path);
    assert!(there.status == MISUSE && there.err.contains(" is there already; ") && plain(&there.err, 2), "{:?}", there.err);
    let within = make("exec \"$0\" \"$@\"", &path.join("made.cap"));
    assert!(within.status == MISUSE && within.err.contains("cannot write '") && plain(&within.err, 2), "{:?}", within.err);
    fs::remove_file(&path).expect("the capture goes");
    let unsaid = make("exec \"$0\" \"$@\" > /dev/full", &path);
    assert!(unsaid.status == MISUSE && unsaid.err.contains("' was written, but ") && plain(&unsaid.err, 2), "{:?}", unsaid.err);
}

#[test]
fn a_wrong_platform_file_is_shown_without_control_characters() {
    let folder = folder("a_wrong_platform_file_is_shown");
    let words = written(&folder, &image(&Shape::default()));
    for text in ["a\x1b[2Jb\n", "a\x1b = 1\n", "vendor = \x1b[1m\n"] {
        fs::write(folder.join("platform.txt"), text).expect("a platform file");
        let ran = run_with(&["check"], &words, &[]);
        assert!(ran.status == MISUSE && !ran.err.contains('\x1b') && ran.err.contains("\\u{1b}"), "{:?}", ran.err);
    }
}

#[test]
fn the_suggested_command_can_be_run() {
    let folder = folder("the_suggested_command_can_be_run");
    let words = written(&folder, &image(&Shape::default()));
    for name in [&b"plain.cap"[..], b"two words.cap", b"$HOME's `x`.cap", NAME] {
        let path = folder.join(OsStr::from_bytes(name));
        let words: Vec<OsString> = ["capture", "make", "--output"]
            .iter()
            .map(OsString::from)
            .collect::<Vec<_>>()
            .into_iter()
            .chain([path.clone().into_os_string()])
            .chain(words.iter().map(OsString::from))
            .collect();
        let made = ran(tool().args(&words).output().expect("the tool runs"));
        assert_eq!((made.status, made.err.as_str()), (OK, ""), "{name:?}");
        assert!(path.exists(), "{name:?}");
        let command = made.out.lines().find_map(|line| line.strip_prefix("Check it: bleiwurzel ")).expect("a command");
        let checked = ran(in_bash(&format!("\"$0\" {command}"), &[] as &[&str]));
        assert_eq!((checked.status, checked.err.as_str()), (OK, ""), "{command}");
        let alone = ran(tool().arg("check").arg(&path).output().expect("the tool runs"));
        let (_, flag) = alone.err.split_once(", as ").expect("a suggestion");
        let (flag, _) = flag.split_once("\nMore: ").expect("one line");
        assert_eq!(ran(in_bash(&format!("\"$0\" check {flag}"), &[] as &[&str])).status, OK, "{flag}");
    }
}

/// All names in a folder, sorted.
fn names(folder: &Path) -> Vec<OsString> {
    let mut names: Vec<OsString> =
        fs::read_dir(folder).expect("a folder").map(|entry| entry.expect("an entry").file_name()).collect();
    names.sort();
    names
}

#[test]
fn a_capture_is_written_whole_or_not_at_all() {
    let folder = folder("a_capture_is_written_whole");
    let output = folder.join("made.cap");
    let words = written(&folder, &image(&Shape::default()));
    let before = names(&folder);
    let words: Vec<String> = ["capture".into(), "make".into()]
        .into_iter()
        .chain(words)
        .chain(["--output".into(), output.to_string_lossy().into_owned()])
        .collect();
    // A limit on the size of files makes the write fail; with the signal not ignored it ends the tool in the middle.
    let failed = ran(in_bash("trap '' XFSZ; ulimit -f 4; exec \"$0\" \"$@\"", &words));
    assert_eq!(failed.status, MISUSE);
    assert!(failed.err.contains("cannot write") && failed.err.contains("made.cap"), "{}", failed.err);
    assert_eq!(names(&folder), before, "nothing is left of a write that failed");
    let killed = in_bash("ulimit -c 0; ulimit -f 4; exec \"$0\" \"$@\"", &words);
    assert_eq!(killed.status.code(), None, "the tool was ended by a signal");
    assert!(!output.exists(), "a file that is not whole has the capture's name");
    fs::write(&output, b"kept").expect("a file");
    let words: Vec<&str> = words.iter().map(String::as_str).collect();
    assert_eq!(run(&words).status, MISUSE);
    assert_eq!(fs::read(&output).expect("the file"), b"kept");
    fs::remove_file(&output).expect("the file goes");
    assert_eq!(run(&words).status, OK);
    assert_eq!(run(&["check", "--capture", &output.to_string_lossy()]).status, OK);
}

#[test]
fn what_is_said_of_a_file_that_is_there() {
    let folder = folder("what_is_said_of_a_file");
    let words = written(&folder, &image(&Shape::default()));
    let (file, directory) = (folder.join("window.bin"), folder.to_string_lossy().into_owned());
    for (output, remove) in [(&*file.to_string_lossy(), true), ("/dev/null", false), (&directory, false)] {
        let ran = run_with(&["capture", "make"], &words, &["--output", output]);
        assert_eq!(ran.status, MISUSE, "{output}");
        assert!(ran.err.contains("choose another name") && ran.err.contains("remove it") == remove, "{}", ran.err);
    }
    let output = folder.join("made.cap").to_string_lossy().into_owned();
    let words: Vec<&str> = words.iter().map(String::as_str).chain(["--output", &output]).collect();
    let ran = ran(in_bash("\"$0\" capture make \"$@\" > /dev/full", &words));
    assert!(ran.status == MISUSE && ran.err.contains("made.cap' was written, but "), "{}", ran.err);
    assert_eq!(run(&["check", "--capture", &output]).status, OK);
}

/// A capture has the module's bytes as they stand, also where its header states another length.
#[test]
fn a_capture_of_a_module_that_states_another_length() {
    let folder = folder("a_capture_of_a_module");
    let mut image = image(&Shape::default());
    put(&mut image.sinit, 24, 32, 4);
    let words = written(&folder, &image);
    let output = folder.join("made.cap").to_string_lossy().into_owned();
    assert_eq!(run_with(&["capture", "make"], &words, &["--output", &output]).status, OK);
    let capture = fs::read(&output).expect("the capture");
    let (parts, _) = bleiwurzel::capture::split(&capture).expect("a capture");
    assert!(parts.sinit == image.sinit, "the module is kept");
    let (of_parts, of_capture) = (run_with(&["check"], &words, &[]), run(&["check", "--capture", &output]));
    assert!(of_parts.out.starts_with("refused 7, "), "{}", of_parts.out);
    assert_eq!(of_parts.out, of_capture.out);
}
