//! Whether a standard stream was closed by the caller. Before `main` Rust's runtime opens /dev/null in the place of a closed one, so that
//! reading from it gives no bytes and what is written to it is lost, both without an error.

use std::fs;
use std::io::{self, ErrorKind};
use std::path::Path;

pub const INPUT: u32 = 0;
pub const OUTPUT: u32 = 1;

/// Fails where this standard stream is closed. Where there is no /proc that cannot be told, and it does not fail.
pub fn need_open(descriptor: u32) -> io::Result<()> {
    let about = fs::read_to_string(format!("/proc/self/fdinfo/{descriptor}")).unwrap_or_default();
    if is_null(descriptor) && both_ways(&about) {
        return Err(io::Error::new(ErrorKind::Other, "it is closed"));
    }
    Ok(())
}

fn is_null(descriptor: u32) -> bool {
    fs::read_link(format!("/proc/self/fd/{descriptor}")).map_or(false, |file| file == Path::new("/dev/null"))
}

/// Whether what /proc says about a descriptor is that it is open for reading and writing, as the runtime opens it. A caller's `< /dev/null` is
/// open for reading only, and `> /dev/null` for writing only.
fn both_ways(about: &str) -> bool {
    let flags = about.lines().find_map(|line| line.strip_prefix("flags:"));
    let flags = flags.and_then(|flags| u32::from_str_radix(flags.trim(), 8).ok());
    // The access mode is the lowest two bits: 0 for reading, 1 for writing, 2 for both.
    flags.map_or(false, |flags| flags & 3 == 2)
}

#[cfg(test)]
mod tests {
    use super::*;

    #[test]
    fn ways_of_a_descriptor() {
        for (about, both) in [
            ("pos:\t0\nflags:\t0100002\nmnt_id:\t25\n", true),
            ("pos:\t0\nflags:\t02\n", true),
            ("pos:\t2\nflags:\t0100000\nmnt_id:\t25\n", false),
            ("pos:\t0\nflags:\t0100001\n", false),
            ("flags:\n", false),
            ("", false),
        ] {
            assert_eq!(both_ways(about), both, "{about:?}");
        }
    }

    #[test]
    fn a_descriptor_that_is_not_there_is_not_told() {
        assert!(need_open(u32::MAX).is_ok());
    }
}
