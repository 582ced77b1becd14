//! Cases with an STM image, which no capture carries. An independent model of the rules made the cases and their outputs once.
//!
//! A case is: the mark `LPX`; 32-bit number of places lent for pages; the platform as in a capture; 16-bit count of reserved ranges and always 16
//! pairs of 64-bit base and size; five 32-bit lengths (window, heap, module, record, STM image); the five parts. No stored case has ranges.

use super::top;
use inputs::{MemoryRange, Parts, Platform, Reserved, MOST_RESERVED};
use std::path::PathBuf;

/// Where the cases stand.
pub fn lent_folder() -> PathBuf {
    top().join("rust/bleiwurzel/tests/data/lent")
}

/// The cases by name, in order.
pub fn lent_cases() -> Vec<(String, Vec<u8>)> {
    let mut cases: Vec<(String, Vec<u8>)> = std::fs::read_dir(lent_folder())
        .expect("the cases")
        .map(|entry| entry.expect("an entry of the folder").path())
        .filter(|path| path.extension().map_or(false, |extension| extension == "case"))
        .map(|path| (path.file_name().unwrap().to_string_lossy().into_owned(), std::fs::read(&path).expect("a case")))
        .collect();
    cases.sort();
    cases
}

/// What is left to read of a case.
struct Case<'a>(&'a [u8]);

impl<'a> Case<'a> {
    fn bytes(&mut self, length: usize) -> &'a [u8] {
        let (front, rest) = self.0.split_at(length);
        self.0 = rest;
        front
    }

    fn number(&mut self, width: usize) -> u64 {
        self.bytes(width).iter().rev().fold(0, |value, byte| value << 8 | u64::from(*byte))
    }

    fn platform(&mut self) -> Platform {
        let [window_base, heap_base, sinit_base, dpr_base, dpr_size, acram_capacity] = [(); 6].map(|()| self.number(8));
        let [vendor, device, revision] = [(); 3].map(|()| self.number(2) as u16);
        let count = self.number(2) as usize;
        let ranges = [(); MOST_RESERVED].map(|()| MemoryRange { base: self.number(8), size: self.number(8) });
        let reserved = Reserved::new(&ranges[..count]).expect("at most 16 ranges");
        Platform { window_base, heap_base, sinit_base, dpr_base, dpr_size, acram_capacity, vendor, device, revision, reserved }
    }

    fn parts(&mut self) -> Parts<'a> {
        let lengths = [(); 5].map(|()| self.number(4) as usize);
        let [window, heap, sinit, record, stm] = lengths.map(|length| self.bytes(length));
        Parts { window, heap, sinit, record, stm }
    }
}

/// The parts, the platform and the number of places.
pub fn split_lent(bytes: &[u8]) -> (Parts<'_>, Platform, usize) {
    let mut case = Case(bytes);
    assert_eq!(case.bytes(3), b"LPX");
    let places = case.number(4) as usize;
    let platform = case.platform();
    let parts = case.parts();
    assert!(case.0.is_empty(), "bytes behind the parts");
    (parts, platform, places)
}
