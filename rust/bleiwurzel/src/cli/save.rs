//! A new file is written under a temporary name and takes its own when it is whole, so that nothing half written ever has that name. Of several
//! files none takes its name before all are whole. A file that is there already is kept. The name `-` is standard output.

use super::args::OUTPUT;
use super::{files, misuse, names, streams, Misuse};
use std::ffi::OsStr;
use std::fs::{self, File, OpenOptions};
use std::io::{self, ErrorKind, Write};
use std::path::{Path, PathBuf};
use std::sync::atomic::{AtomicU32, Ordering};
use std::time::{SystemTime, UNIX_EPOCH};

/// What is to be written, and the flag that names the file.
pub struct Output<'a> {
    pub flag: &'static str,
    pub path: &'a OsStr,
    pub bytes: &'a [u8],
}

/// A file under its temporary name, which goes in the end.
struct Temporary(PathBuf);

impl Drop for Temporary {
    fn drop(&mut self) {
        // After a rename there is none to remove.
        let _ = fs::remove_file(&self.0);
    }
}

/// Writes the bytes to a new file.
pub fn write(path: &OsStr, bytes: &[u8], help: &'static str) -> Result<(), Misuse> {
    write_all(&[Output { flag: OUTPUT, path, bytes }], help)
}

/// Writes all of these, each to a new file, or none of them.
pub fn write_all(outputs: &[Output], help: &'static str) -> Result<(), Misuse> {
    let (standard, named): (Vec<&Output>, Vec<&Output>) = outputs.iter().partition(|output| output.path == files::STANDARD);
    let whole = |output: &&Output| to_file(Path::new(output.path), output.bytes).or_else(|error| unwritten(output, &error, help));
    let temporary = named.iter().map(whole).collect::<Result<Vec<_>, _>>()?;
    // What is on standard output cannot be taken back, so the files have no names before it is there.
    for output in standard {
        to_output(output.bytes).or_else(|error| misuse(help, format!("cannot write to standard output: {error}")))?;
    }
    name_all(&temporary, &named, name, help)
}

/// What to do where a file cannot be written.
fn unwritten<T>(output: &Output, error: &io::Error, help: &'static str) -> Result<T, Misuse> {
    let (name, flag) = (names::shown(output.path), output.flag);
    if error.kind() != ErrorKind::AlreadyExists {
        return misuse(help, format!("cannot write '{name}': {error}"));
    }
    let why = match fs::symlink_metadata(output.path) {
        Ok(found) if found.is_file() => "is there already; remove it or",
        // What is no plain file, as a folder or /dev/null, is not for the caller to remove.
        Ok(_) => "is there already;",
        // The other file has gone again.
        Err(_) => "is the name of another file that is to be written;",
    };
    misuse(help, format!("'{name}' {why} choose another name for {flag}"))
}

fn to_output(bytes: &[u8]) -> io::Result<()> {
    streams::need_open(streams::OUTPUT)?;
    let mut out = io::stdout().lock();
    out.write_all(bytes)?;
    out.flush()
}

/// The whole file under a temporary name.
fn to_file(path: &Path, bytes: &[u8]) -> io::Result<Temporary> {
    if fs::symlink_metadata(path).is_ok() {
        return Err(ErrorKind::AlreadyExists.into());
    }
    let temporary = beside(path);
    let mut file = OpenOptions::new().write(true).create_new(true).open(&temporary)?;
    let temporary = Temporary(temporary);
    fill(&mut file, bytes).map(|()| temporary)
}

fn fill(file: &mut File, bytes: &[u8]) -> io::Result<()> {
    file.write_all(bytes)?;
    file.sync_all()
}

/// How a whole file is given its name.
type Naming = fn(&Path, &Path) -> io::Result<()>;

/// Gives whole files their names. Where one cannot have its own, those before it lose theirs.
fn name_all(files: &[Temporary], outputs: &[&Output], name: Naming, help: &'static str) -> Result<(), Misuse> {
    let mut all = files.iter().zip(outputs).enumerate();
    let failed = all.find_map(|(i, (file, output))| name(&file.0, Path::new(output.path)).err().map(|error| (i, error)));
    let (i, error) = match failed {
        None => return Ok(()),
        Some(failed) => failed,
    };
    // Before anything is said: a name that one of these has taken is free again.
    outputs[..i].iter().for_each(|before| drop(fs::remove_file(before.path)));
    unwritten(outputs[i], &error, help)
}

/// Gives a whole file its name. A link fails where the name was taken meanwhile.
fn name(temporary: &Path, path: &Path) -> io::Result<()> {
    match fs::hard_link(temporary, path) {
        Err(error) if error.kind() != ErrorKind::AlreadyExists => renamed(temporary, path),
        linked => linked,
    }
}

/// The same on file systems without links. A rename overwrites, so the name is looked at before.
fn renamed(temporary: &Path, path: &Path) -> io::Result<()> {
    if fs::symlink_metadata(path).is_ok() {
        return Err(ErrorKind::AlreadyExists.into());
    }
    fs::rename(temporary, path)
}

/// A name in the same folder that no one else uses.
fn beside(path: &Path) -> PathBuf {
    static COUNT: AtomicU32 = AtomicU32::new(0);
    let count = COUNT.fetch_add(1, Ordering::Relaxed);
    let nanoseconds = SystemTime::now().duration_since(UNIX_EPOCH).map_or(0, |since| since.as_nanos());
    path.with_file_name(format!(".bleiwurzel-{}-{nanoseconds}-{count}.tmp", std::process::id()))
}

#[cfg(test)]
mod tests {
    use super::*;

    /// A folder of its own for each test, which goes in the end.
    struct Folder(PathBuf);

    impl Folder {
        fn new() -> Self {
            let folder = beside(&std::env::temp_dir().join("x"));
            fs::create_dir(&folder).expect("a folder");
            Folder(folder)
        }

        fn path(&self, name: &str) -> PathBuf {
            self.0.join(name)
        }

        fn count(&self) -> usize {
            fs::read_dir(&self.0).expect("the folder").count()
        }

        /// Has two files named as on a file system without links: what is wrong.
        fn named(&self, names: [&str; 2]) -> Option<String> {
            let paths = names.map(|name| self.path(name));
            let output = |i: usize| Output { flag: [OUTPUT, "--record"][i], path: paths[i].as_os_str(), bytes: &b"ab"[i..=i] };
            let outputs = [0, 1].map(output);
            let files = [0, 1].map(|i: usize| to_file(&paths[i], outputs[i].bytes).expect("a whole file"));
            name_all(&files, &[&outputs[0], &outputs[1]], renamed, "").err().map(|misuse| misuse.message)
        }
    }

    impl Drop for Folder {
        fn drop(&mut self) {
            let _ = fs::remove_dir_all(&self.0);
        }
    }

    #[test]
    fn two_names_without_links() {
        let folder = Folder::new();
        assert_eq!(folder.named(["one", "two"]), None);
        let read = |name: &str| fs::read(folder.path(name)).expect("a file");
        assert_eq!((read("one"), read("two"), folder.count()), (b"a".to_vec(), b"b".to_vec(), 2));
    }

    /// The second file does not take the place of the first; both go, and nobody is told to remove what is gone.
    #[test]
    fn one_name_twice_without_links() {
        let folder = Folder::new();
        let message = folder.named(["same", "./same"]).expect("no second file of this name");
        let said = "/./same' is the name of another file that is to be written; choose another name for --record";
        assert!(message.ends_with(said), "{message}");
        assert_eq!(folder.count(), 0);
    }

    /// A name that is taken between the look at it and the naming is kept.
    #[test]
    fn a_name_that_is_taken_meanwhile() {
        let folder = Folder::new();
        let (whole, taken) = (folder.path("whole"), folder.path("taken"));
        fs::write(&whole, b"new").and_then(|()| fs::write(&taken, b"kept")).expect("two files");
        for name in [name, renamed] {
            assert_eq!(name(&whole, &taken).expect_err("it is there").kind(), ErrorKind::AlreadyExists);
            assert_eq!(fs::read(&taken).expect("a file"), b"kept");
        }
    }
}
