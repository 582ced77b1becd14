//! An image out of a stored capture, for what a test cannot make by itself: a signature that verifies.
#![allow(dead_code)]

use super::common::*;
use bleiwurzel::{capture, MOST_PAGES};

/// One signed list of one launch element, which names the image; its counter is 1, and so is the record's for it.
pub const SIGNED: &str = "29-signed-counter-1-record-1.cap";

/// Offsets in the policy file of that capture.
pub const SIGNED_LIST: usize = 36;
pub const SIGNED_CONTROL: usize = 52;
pub const SIGNED_COUNTER: usize = 94;
pub const SIGNED_KEY: usize = 98;
pub const SIGNATURE: usize = 354;
pub const SIGNED_END: usize = 610;

/// Two lists without elements and a signed one that names the image; its counter is 7, and so is the record's for list 2.
pub const SIGNED_BEHIND_TWO: &str = "29-signed-counter-index-2.cap";

/// A stored capture with an image of the pages 0x104000 and 0x105000.
pub fn stored_image(name: &str) -> Image {
    let bytes = std::fs::read(top().join("crates/stored_cases/data").join(name)).expect("a stored capture");
    let (parts, platform) = capture::split(&bytes).expect("a capture");
    Image {
        window: parts.window.to_vec(),
        heap: parts.heap.to_vec(),
        sinit: parts.sinit.to_vec(),
        record: parts.record.to_vec(),
        stm: Vec::new(),
        platform,
        places: MOST_PAGES,
        listed: vec![0x104000, 0x105000],
        content: 4,
    }
}

/// Changes the lowest bit of a byte of the policy file.
pub fn flip(image: &mut Image, at: usize) {
    let base = image.heap[POLICY_BASE..][..8].iter().rev().fold(0, |base, byte| base << 8 | u64::from(*byte));
    let at = image.offset(base) + at;
    image.window[at] ^= 1;
}
