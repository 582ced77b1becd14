//! The commands. Each gives a text for standard output and an exit status, or says what was asked wrongly.

mod args;
mod capture;
mod check;
mod description;
mod dump;
mod files;
mod help;
mod json;
mod memory_map;
mod module;
mod names;
mod platform;
mod policy;
mod policy_write;
mod refusals;
mod report;
mod save;
mod streams;
mod wrap;

use std::ffi::OsString;
use std::io::{self, ErrorKind, Write};
use std::panic::{self, UnwindSafe};

/// Permitted, accepted, shown or written. Of `check` it means permitted and nothing else.
pub const YES: u8 = 0;
/// Refused.
pub const NO: u8 = 1;
/// No answer: asked wrongly, or something cannot be read or written.
pub const MISUSE: u8 = 2;

/// What a command says.
pub struct Said {
    pub text: String,
    pub status: u8,
}

/// What was asked wrongly and what to do, and the command whose `--help` has more.
#[derive(Debug)]
pub struct Misuse {
    pub message: String,
    pub help: &'static str,
}

pub fn misuse<T>(help: &'static str, message: impl Into<String>) -> Result<T, Misuse> {
    Err(Misuse { message: message.into(), help })
}

/// Says what a command says, and gives the exit status. A fault of this program is no answer either; it has not the status that Rust gives,
/// which no help speaks of.
pub fn run(command: impl FnOnce() -> Result<Said, Misuse> + UnwindSafe) -> u8 {
    panic::catch_unwind(|| answered(command())).unwrap_or(MISUSE)
}

fn answered(answer: Result<Said, Misuse>) -> u8 {
    match answer {
        Ok(said) => print(&said),
        Err(misuse) => {
            complain(&format!("{}\nMore: {} --help", misuse.message, misuse.help));
            MISUSE
        }
    }
}

/// Says on standard error what is wrong. Where that cannot be written either, the status is left to say it.
fn complain(message: &str) {
    let _ = writeln!(io::stderr(), "bleiwurzel: {message}");
}

/// Prints and gives the status.
fn print(said: &Said) -> u8 {
    match say(&said.text) {
        Ok(()) => said.status,
        Err(error) => {
            complain(&format!("cannot write to standard output: {error}"));
            MISUSE
        }
    }
}

/// Prints. A reader that has gone away does not matter; what cannot be written otherwise does.
pub fn say(text: &str) -> io::Result<()> {
    let mut out = io::stdout().lock();
    match out.write_all(text.as_bytes()).and_then(|()| out.flush()) {
        Err(error) if error.kind() != ErrorKind::BrokenPipe => Err(error),
        _ => Ok(()),
    }
}

/// Says on standard error what has no place on standard output. Where it cannot be written, the status is left to say it.
pub fn say_aside(text: &str) {
    let _ = io::stderr().write_all(text.as_bytes());
}

/// The command that these words ask for.
pub fn command(mut words: Vec<OsString>) -> Result<Said, Misuse> {
    if words.is_empty() {
        return misuse("bleiwurzel", "a command is missing: check, policy, capture or refusals");
    }
    let rest = words.split_off(1);
    match words[0].to_str() {
        Some("check") => check::run(rest),
        Some("policy") => policy::run(rest),
        Some("capture") => capture::run(rest),
        Some("refusals") => refusals::run(rest),
        Some("--help" | "-h" | "help") => Ok(Said { text: help::MAIN.to_string(), status: YES }),
        Some("--version") => Ok(Said { text: format!("bleiwurzel {}\n", env!("CARGO_PKG_VERSION")), status: YES }),
        _ => {
            let word = names::shown(&words[0]);
            misuse("bleiwurzel", format!("there is no command '{word}'; there are check, policy, capture and refusals"))
        }
    }
}

#[cfg(test)]
mod tests {
    use super::*;

    #[test]
    fn a_fault_of_the_program_is_no_answer() {
        let said = |status| run(move || Ok(Said { text: String::new(), status }));
        assert_eq!([YES, NO, MISUSE].map(said), [YES, NO, MISUSE]);
        assert_eq!(run(|| panic!("as it should, to test what becomes of it")), MISUSE);
    }
}
