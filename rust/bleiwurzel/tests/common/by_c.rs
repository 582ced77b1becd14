//! The check by the function that the C header declares and the crate does not call. It takes what the crate cannot hand over: ranges past the
//! count, and a count over 16.
#![allow(dead_code)]

use super::common::UNTOUCHED;
use bleiwurzel::{Parts, Platform, MOST_RESERVED};

extern "C" {
    fn bleiwurzel_check(
        window: *const u8,
        window_length: usize,
        heap: *const u8,
        heap_length: usize,
        sinit: *const u8,
        sinit_length: usize,
        record: *const u8,
        record_length: usize,
        stm: *const u8,
        stm_length: usize,
        window_base: u64,
        heap_base: u64,
        sinit_base: u64,
        dpr_base: u64,
        dpr_size: u64,
        acram_capacity: u64,
        vendor: u16,
        device: u16,
        revision: u16,
        reserved_count: u32,
        reserved: *const [u64; 2 * MOST_RESERVED],
        pages: *mut u64,
        places: usize,
        counts: *mut [u32; 2],
        place: *mut [u32; 1],
        digest: *mut [u8; 32],
    ) -> u32;
}

/// What it answers and writes.
pub struct Given {
    pub number: u32,
    pub counts: [u32; 2],
    pub place: [u32; 1],
    pub digest: [u8; 32],
    pub pages: Vec<u64>,
}

/// The check with this count and these ranges, base and size in turn, in the place of the platform's own, and a page list of so many places.
pub fn by_c(parts: &Parts, platform: &Platform, count: u32, reserved: &[u64; 2 * MOST_RESERVED], places: usize) -> Given {
    let pages = vec![UNTOUCHED; places];
    let mut given = Given { number: 0, counts: [1; 2], place: [1], digest: [1; 32], pages };
    // SAFETY: as in the crate: each slice has its own length, and what is written is this function's own.
    given.number = unsafe {
        bleiwurzel_check(
            parts.window.as_ptr(),
            parts.window.len(),
            parts.heap.as_ptr(),
            parts.heap.len(),
            parts.sinit.as_ptr(),
            parts.sinit.len(),
            parts.record.as_ptr(),
            parts.record.len(),
            parts.stm.as_ptr(),
            parts.stm.len(),
            platform.window_base,
            platform.heap_base,
            platform.sinit_base,
            platform.dpr_base,
            platform.dpr_size,
            platform.acram_capacity,
            platform.vendor,
            platform.device,
            platform.revision,
            count,
            reserved,
            given.pages.as_mut_ptr(),
            given.pages.len(),
            &mut given.counts,
            &mut given.place,
            &mut given.digest,
        )
    };
    given
}
