//! Capture files: all that a check needs in one file of at most 65,536 bytes.
//!
//! The mark `LPC`, a 16-bit version, the platform in the order of [`Platform`], four 32-bit lengths (window, heap, module, record), then the
//! four parts, and nothing after. Of reserved ranges version 1 has none; version 2 has a 16-bit count and that many pairs of 64-bit base and
//! size. There is no STM image in either.

use crate::{text, Parts, Platform, MOST_RESERVED};
use std::fmt;
use twin::capture::Fault as Stopped;
pub use twin::capture::{Layout, MARK, MOST};

/// How many places for pages the programs for captures lend, which is more than a capture has pages.
pub const PLACES: usize = 4096;
/// The names of the four parts.
pub const PARTS: [&str; 4] = ["window", "heap", "SINIT module", "policy record"];

/// Why parts make no capture.
#[derive(Clone, Copy, Debug, PartialEq, Eq)]
pub enum Unfit {
    /// It would have so many bytes, which are over the limit.
    Long(usize),
    /// There is an STM image, and a capture would lose it.
    Stm,
}

impl fmt::Display for Unfit {
    fn fmt(&self, f: &mut fmt::Formatter) -> fmt::Result {
        match self {
            Unfit::Long(bytes) => write!(f, "a capture has at most {MOST} bytes, and these parts would make {bytes}"),
            Unfit::Stm => f.write_str("a capture has no place for an STM image"),
        }
    }
}

impl std::error::Error for Unfit {}

/// Why bytes are no capture: the field, what it should be and what it is.
#[derive(Clone, Debug, PartialEq, Eq)]
pub struct Fault {
    pub place: String,
    pub expected: String,
    pub found: String,
}

/// The parts and the platform of a capture.
pub fn split(capture: &[u8]) -> Result<(Parts<'_>, Platform), Fault> {
    twin::capture::split(capture).map_err(|fault| said(fault, capture))
}

fn words(place: impl Into<String>, expected: impl Into<String>, found: impl Into<String>) -> Fault {
    Fault { place: place.into(), expected: expected.into(), found: found.into() }
}

/// What is said where the reading of a capture stopped.
pub(crate) fn said(fault: Stopped, capture: &[u8]) -> Fault {
    let length = text::bytes(capture.len() as u64);
    match fault {
        Stopped::Long => words("the whole file", format!("at most {MOST} bytes"), length),
        Stopped::Short(layout) => words("the whole file", least(&layout), length),
        Stopped::Mark => {
            let expected = format!("{}, which is {}", text::spaced(MARK), String::from_utf8_lossy(MARK));
            words("the mark, offset 0", expected, text::spaced(&capture[..MARK.len()]))
        }
        Stopped::Version(version) => {
            let [one, other] = Layout::VERSIONS;
            words(format!("the version, offset {}", Layout::VERSION), format!("{one} or {other}"), version.to_string())
        }
        Stopped::Ranges(count) => {
            let place = format!("the count of reserved ranges, offset {}", Layout::COUNT);
            words(place, format!("at most {MOST_RESERVED}"), count.to_string())
        }
        Stopped::Lengths(layout) => of_lengths(&layout, capture),
    }
}

fn least(layout: &Layout) -> String {
    let ranges = text::counted(layout.ranges as u64, "reserved range");
    let with = if layout.has_count() { format!(" in version {} with {ranges}", layout.version) } else { String::new() };
    format!("at least {} bytes, as many as stand before the parts{with}", layout.head())
}

fn of_lengths(layout: &Layout, capture: &[u8]) -> Fault {
    let (head, lengths) = (layout.head(), layout.lengths(capture));
    let whole = head as u64 + lengths.iter().map(|length| u64::from(*length)).sum::<u64>();
    let [window, heap, sinit, record] = lengths;
    words(
        format!("the four lengths, offsets {} to {}", layout.length(0), head - 1),
        format!("lengths that make {} bytes with the {head} of the head, as many as the file has", capture.len()),
        format!("window {window}, heap {heap}, module {sinit}, record {record}, which makes {whole}"),
    )
}

/// The capture of these parts: of version 2 where the platform has reserved ranges, else of version 1.
pub fn make(parts: &Parts, platform: &Platform) -> Result<Vec<u8>, Unfit> {
    if !parts.stm.is_empty() {
        return Err(Unfit::Stm);
    }
    let all = [parts.window, parts.heap, parts.sinit, parts.record];
    let layout = Layout::of(&platform.reserved);
    let whole = layout.head() + all.iter().map(|part| part.len()).sum::<usize>();
    if whole > MOST {
        return Err(Unfit::Long(whole));
    }
    let mut capture = Vec::with_capacity(whole);
    capture.extend_from_slice(MARK);
    capture.extend_from_slice(&layout.version.to_le_bytes());
    put_platform(&mut capture, platform, &layout);
    for part in all {
        capture.extend_from_slice(&(part.len() as u32).to_le_bytes());
    }
    for part in all {
        capture.extend_from_slice(part);
    }
    Ok(capture)
}

fn put_platform(capture: &mut Vec<u8>, platform: &Platform, layout: &Layout) {
    for number in [
        platform.window_base,
        platform.heap_base,
        platform.sinit_base,
        platform.dpr_base,
        platform.dpr_size,
        platform.acram_capacity,
    ] {
        capture.extend_from_slice(&number.to_le_bytes());
    }
    for number in [platform.vendor, platform.device, platform.revision] {
        capture.extend_from_slice(&number.to_le_bytes());
    }
    if layout.has_count() {
        capture.extend_from_slice(&(layout.ranges as u16).to_le_bytes());
    }
    for number in platform.reserved.as_slice().iter().flat_map(|range| [range.base, range.size]) {
        capture.extend_from_slice(&number.to_le_bytes());
    }
}
