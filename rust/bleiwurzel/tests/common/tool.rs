//! The tool as a program: what it is run on, and what it says.
#![allow(dead_code)]

use super::common::*;
use std::ffi::OsStr;
use std::io::Write;
use std::path::{Path, PathBuf};
use std::process::{Command, Output, Stdio};

pub const OK: i32 = 0;
pub const REFUSED: i32 = 1;
pub const MISUSE: i32 = 2;

pub struct Ran {
    pub status: i32,
    pub out: String,
    pub err: String,
}

/// The program itself.
pub const TOOL: &str = env!("CARGO_BIN_EXE_bleiwurzel");

pub fn tool() -> Command {
    Command::new(TOOL)
}

pub fn ran(output: Output) -> Ran {
    let text = |bytes: &[u8]| String::from_utf8(bytes.to_vec()).expect("text");
    Ran { status: output.status.code().expect("an exit status"), out: text(&output.stdout), err: text(&output.stderr) }
}

pub fn run(words: &[&str]) -> Ran {
    ran(tool().args(words).output().expect("the tool runs"))
}

/// The tool with these bytes on standard input.
pub fn run_on(input: &[u8], words: &[&str]) -> Output {
    let mut child =
        tool().args(words).stdin(Stdio::piped()).stdout(Stdio::piped()).stderr(Stdio::piped()).spawn().expect("the tool runs");
    // A tool that does not read it is seen by its answer.
    let _ = child.stdin.take().expect("standard input").write_all(input);
    child.wait_with_output().expect("the tool ends")
}

/// A script for bash, in which `$0` is the tool and `$@` are the words.
pub fn in_bash<T: AsRef<OsStr>>(script: &str, words: &[T]) -> Output {
    Command::new("bash").args(["-c", script, TOOL]).args(words).output().expect("bash runs")
}

/// A folder of its own for each test.
pub fn folder(name: &str) -> PathBuf {
    let folder = Path::new(env!("CARGO_TARGET_TMPDIR")).join(name);
    let _ = std::fs::remove_dir_all(&folder);
    std::fs::create_dir_all(&folder).expect("a folder for the test");
    folder
}

pub fn stored(name: &str) -> String {
    top().join("crates/stored_cases/data").join(name).to_string_lossy().into_owned()
}

/// Writes an image's parts and platform into a folder; gives the words for `check`. Without an STM image there is no file for it.
pub fn written(folder: &Path, image: &Image) -> Vec<String> {
    let p = &image.platform;
    let platform = format!(
        "# the platform\nwindow_base = {:#x}\nheap_base = {}\nsinit_base = {:#x}\ndpr_base = {:#x}\ndpr_size = {}\nacram-capacity = {:#x}\n\
         vendor = {:#x}\ndevice = {:#X}\nrevision = {} # the last\n",
        p.window_base, p.heap_base, p.sinit_base, p.dpr_base, p.dpr_size, p.acram_capacity, p.vendor, p.device, p.revision
    )
    .replace("0XB", "0xB");
    let reserved = p.reserved.as_slice().iter().map(|range| format!("reserved = {:#x}+{}\n", range.base, range.size));
    let platform = platform + &reserved.collect::<String>();
    let parts: [(&str, &str, &[u8]); 6] = [
        ("--window", "window.bin", &image.window),
        ("--heap", "heap.bin", &image.heap),
        ("--sinit", "sinit.bin", &image.sinit),
        ("--policy-record", "record.bin", &image.record),
        ("--platform", "platform.txt", platform.as_bytes()),
        ("--stm", "stm.bin", &image.stm),
    ];
    let mut words = Vec::new();
    for (flag, name, bytes) in parts.into_iter().filter(|(flag, _, bytes)| *flag != "--stm" || !bytes.is_empty()) {
        let path = folder.join(name);
        std::fs::write(&path, bytes).expect("a part is written");
        words.extend([flag.to_string(), path.to_string_lossy().into_owned()]);
    }
    words
}

pub fn run_with(command: &[&str], words: &[String], more: &[&str]) -> Ran {
    let words: Vec<&str> = command.iter().copied().chain(words.iter().map(String::as_str)).chain(more.iter().copied()).collect();
    run(&words)
}

/// Makes a file longer without writing it.
pub fn lengthen(path: &Path, length: u64) {
    std::fs::OpenOptions::new().write(true).open(path).and_then(|file| file.set_len(length)).expect("a longer file");
}
