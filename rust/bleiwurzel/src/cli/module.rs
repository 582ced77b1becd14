//! The file of a SINIT module, which is held in memory only as far as it can matter. The module's header says how long the module is; where it
//! is of another length, or the header is wrong, rule 6 or 7 refuses it whatever follows. So what follows is counted and not held.

use super::{files, Misuse};
use bleiwurzel::finding::{only_length, Length, HEADER_LENGTH};
use bleiwurzel::{Platform, MOST_MODULE};
use std::collections::TryReserveError;
use std::ffi::OsStr;
use std::io::{self, ErrorKind, Read};

/// No module is longer than this on the platform: it has a capacity, and a module ends below 2^32.
pub fn most(platform: &Platform) -> u64 {
    platform.acram_capacity.min(MOST_MODULE.saturating_sub(platform.sinit_base))
}

/// The module, read up to `most` bytes and one more. Where there are more, none are held: rule 6 refuses a module of that length as it does
/// one of no bytes, and the rules before it do not look at the module.
pub fn read(path: &OsStr, most: u64, what: &str, help: &'static str) -> Result<files::Contents, Misuse> {
    let read = files::open(path).and_then(|file| bounded(file, most));
    read.or_else(|error| files::unreadable(path, &error, what, help))
}

fn bounded(file: impl Read, most: u64) -> io::Result<files::Contents> {
    let mut file = file.take(most.saturating_add(1));
    let mut bytes = Vec::new();
    file.by_ref().take(HEADER_LENGTH).read_to_end(&mut bytes)?;
    let left = only_length(&bytes).saturating_sub(bytes.len() as u64);
    file.by_ref().take(left).read_to_end(&mut bytes)?;
    let held = bytes.len() as u64;
    let length = held + io::copy(&mut file, &mut io::sink())?;
    if length > most {
        return Ok(files::Contents { bytes: Vec::new(), length: Length { bytes: length, more: true } });
    }
    // The length alone matters of what was not held.
    Ok(files::Contents { bytes: lengthened(bytes, length as usize)?, length: Length { bytes: length, more: false } })
}

/// The bytes with zeros behind them. Those of `vec!` take no memory until they are read, unlike those of `resize`.
fn lengthened(bytes: Vec<u8>, length: usize) -> io::Result<Vec<u8>> {
    if bytes.len() == length {
        return Ok(bytes);
    }
    drop(room(length).map_err(|error| io::Error::new(ErrorKind::OutOfMemory, error))?);
    let mut whole = vec![0; length];
    whole[..bytes.len()].copy_from_slice(&bytes);
    Ok(whole)
}

/// Room for so many bytes. `vec!` ends the program where there is none, so this is asked first; inlined, the compiler could leave it out as unused.
#[inline(never)]
fn room(length: usize) -> Result<Vec<u8>, TryReserveError> {
    let mut room = Vec::new();
    room.try_reserve_exact(length)?;
    Ok(room)
}

#[cfg(test)]
mod tests {
    use super::*;
    use bleiwurzel::finding::{Edition, EDITIONS};

    /// A module of so many bytes with a header of an edition that rule 7 lets pass, as far as there is room for it, which states `stated` bytes.
    fn module_of(edition: Edition, bytes: usize, stated: u32) -> Vec<u8> {
        let mut module: Vec<u8> = (0..bytes).map(|i| i as u8 | 1).collect();
        let [version, words, key_words] = [edition.version, edition.header_len, edition.key_size].map(|number| number as u32);
        for (at, number) in [(0, 2), (4, words), (8, version), (16, 0x8086), (24, stated / 4), (120, key_words)] {
            let width = if at == 0 { 2 } else { 4 };
            if let Some(field) = module.get_mut(at..at + width) {
                field.copy_from_slice(&number.to_le_bytes()[..width]);
            }
        }
        module
    }

    fn module(bytes: usize, stated: u32) -> Vec<u8> {
        module_of(EDITIONS[0], bytes, stated)
    }

    fn read(module: &[u8], most: u64) -> (Vec<u8>, u64, bool) {
        let contents = bounded(module, most).expect("memory is read");
        (contents.bytes, contents.length.bytes, contents.length.more)
    }

    #[test]
    fn a_module_is_held_as_it_is() {
        for edition in EDITIONS {
            for bytes in [0, 1, 27, 28, 127, 128, 132, 704, 960, 4096] {
                let module = module_of(edition, bytes, bytes as u32);
                assert_eq!(read(&module, 4096), (module, bytes as u64, false), "{bytes}, version {}", edition.name);
            }
        }
    }

    #[test]
    fn what_follows_the_only_length_is_counted() {
        for edition in EDITIONS {
            let module = module_of(edition, 1024, 960);
            let (bytes, length, more) = read(&module, 4096);
            assert_eq!((&bytes[..960], &bytes[960..], length, more), (&module[..960], &[0; 64][..], 1024, false));
        }
    }

    #[test]
    fn behind_a_wrong_header_nothing_is_held() {
        // another type, and the version of the other edition
        for (at, byte) in [(0, 3), (10, 3)] {
            let mut module = module(1024, 1024);
            module[at] = byte;
            let (bytes, length, _) = read(&module, 4096);
            assert_eq!((&bytes[..128], &bytes[128..], length), (&module[..128], &[0; 896][..], 1024), "{at}");
        }
    }

    /// The memory that this process holds now, in bytes.
    fn resident() -> u64 {
        let status = std::fs::read_to_string("/proc/self/status").expect("the status of this process");
        let line = status.lines().find_map(|line| line.strip_prefix("VmRSS:")).expect("a line");
        1024 * line.trim().trim_end_matches(" kB").parse::<u64>().expect("a number")
    }

    #[test]
    fn what_is_not_held_takes_no_memory() {
        let bytes = 256 << 20;
        let before = resident();
        let contents = bounded(io::repeat(0).take(bytes), bytes).expect("zeros are read");
        let more = resident().saturating_sub(before);
        assert_eq!(contents.bytes.len() as u64, bytes);
        assert!(more < bytes / 4, "{more} bytes");
    }

    #[test]
    fn past_the_most_nothing_is_held() {
        assert_eq!(read(&module(704, 704), 703), (Vec::new(), 704, true));
        assert_eq!(
            bounded(io::repeat(0), 1 << 20).map(|read| (read.bytes, read.length.bytes)).ok(),
            Some((Vec::new(), (1 << 20) + 1))
        );
    }
}
