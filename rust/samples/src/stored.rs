//! Where stored files stand, and those that several tests read: captures, policy files, tables of outputs.

use std::collections::HashMap;
use std::path::{Path, PathBuf};

/// The repository's top.
pub fn top() -> PathBuf {
    Path::new(env!("CARGO_MANIFEST_DIR")).join("../..")
}

/// The stored captures by name, in order.
pub fn captures() -> Vec<(String, Vec<u8>)> {
    let folder = top().join("crates/stored_cases/data");
    let mut captures: Vec<(String, Vec<u8>)> = std::fs::read_dir(&folder)
        .expect("the stored captures")
        .map(|entry| entry.expect("an entry of the folder").path())
        .filter(|path| path.extension().map_or(false, |extension| extension == "cap"))
        .map(|path| (path.file_name().unwrap().to_string_lossy().into_owned(), std::fs::read(&path).expect("a capture")))
        .collect();
    captures.sort();
    captures
}

/// The stored policy files by name, in order.
pub fn policy_files() -> Vec<(String, Vec<u8>)> {
    let folder = top().join("crates/policy_show/data");
    let entries = std::fs::read_dir(folder).expect("the stored policy files").map(|entry| entry.expect("an entry of the folder"));
    let mut files: Vec<(String, Vec<u8>)> = entries
        .map(|entry| (entry.file_name().to_string_lossy().into_owned(), std::fs::read(entry.path()).expect("a policy file")))
        .collect();
    files.sort();
    files
}

/// A table of outputs: a name, a tab, and the whole output with `\n` for each line's end.
pub fn outputs(path: &Path) -> HashMap<String, String> {
    let text = std::fs::read_to_string(path).expect("a table of outputs");
    text.lines()
        .map(|line| line.split_once('\t').expect("a name, a tab, an output"))
        .map(|(name, output)| (name.to_string(), output.replace("\\n", "\n")))
        .collect()
}
