//! The functions of the static library, with slices for pointers and lengths. All that is unsafe stands here.

use inputs::{Answer, Parts, Platform, Reserved, MOST_RESERVED, RECORD_FIELDS, RECORD_LENGTH};

/// The reserved ranges as the library takes them: base and size in turn.
type Pairs = [u64; 2 * MOST_RESERVED];

extern "C" {
    fn bleiwurzel_check_measured(
        window: *const u8,
        window_length: usize,
        heap: *const u8,
        heap_length: usize,
        sinit: *const u8,
        sinit_length: usize,
        record: *const u8,
        record_length: usize,
        stm: *const u8,
        stm_length: usize,
        window_base: u64,
        heap_base: u64,
        sinit_base: u64,
        dpr_base: u64,
        dpr_size: u64,
        acram_capacity: u64,
        vendor: u16,
        device: u16,
        revision: u16,
        reserved_count: u32,
        reserved: *const Pairs,
        pages: *mut u64,
        places: usize,
        counts: *mut [u32; 2],
        place: *mut [u32; 1],
        digest: *mut [u8; 32],
        measurement: *mut [u8; 32],
    ) -> u32;
    fn bleiwurzel_check_capture(
        capture: *const u8,
        capture_length: usize,
        pages: *mut u64,
        places: usize,
        counts: *mut [u32; 2],
        place: *mut [u32; 1],
        digest: *mut [u8; 32],
    ) -> u32;
    fn bleiwurzel_policy(file: *const u8, file_length: usize, lists: *mut [u64; 1], place: *mut [u64; 1]) -> u32;
    fn bleiwurzel_policy_list(file: *const u8, file_length: usize, i: usize, fields: *mut [u64; 9]) -> u32;
    fn bleiwurzel_policy_list_at(file: *const u8, file_length: usize, at: usize, fields: *mut [u64; 9]) -> u32;
    fn bleiwurzel_policy_element(file: *const u8, file_length: usize, i: usize, j: usize, fields: *mut [u64; 8]) -> u32;
    fn bleiwurzel_policy_element_at(file: *const u8, file_length: usize, at: usize, fields: *mut [u64; 8]) -> u32;
    fn bleiwurzel_policy_write(
        numbers: *const u32,
        numbers_length: usize,
        bodies: *const u8,
        bodies_length: usize,
        fields: *const [u8; RECORD_FIELDS],
        file: *mut u8,
        room: usize,
        length: *mut [u64; 1],
        record: *mut [u8; RECORD_LENGTH],
    ) -> u32;
    fn bleiwurzel_sha256(message: *const u8, message_length: usize, digest: *mut [u8; 32]);
    fn bleiwurzel_rsa_verify(
        key: *const u8,
        key_length: usize,
        signature: *const u8,
        signature_length: usize,
        message: *const u8,
        message_length: usize,
    ) -> bool;
}

/// How many ranges there are, and all that there is place for; those from the count on are zeros.
fn pairs(reserved: &Reserved) -> (u32, Pairs) {
    let ranges = reserved.as_slice();
    let mut pairs = [0; 2 * MOST_RESERVED];
    for (pair, range) in pairs.chunks_exact_mut(2).zip(ranges) {
        pair.copy_from_slice(&[range.base, range.size]);
    }
    (ranges.len() as u32, pairs)
}

pub fn check(parts: &Parts, platform: &Platform, pages: &mut [u64]) -> Answer {
    check_measured(parts, platform, pages).0
}

/// The answer, and the digest of the pages on a permission and on 29, else zeros.
pub fn check_measured(parts: &Parts, platform: &Platform, pages: &mut [u64]) -> (Answer, [u8; 32]) {
    let (mut counts, mut place) = ([0u32; 2], [0u32; 1]);
    let mut digest = [0u8; 32];
    let mut measurement = [0u8; 32];
    let (reserved_count, reserved) = pairs(&platform.reserved);
    // SAFETY: each slice is passed with its own length; five are lent for reading and one for writing, and the borrow keeps the
    // latter apart from them. The five arrays are this function's own.
    let number = unsafe {
        bleiwurzel_check_measured(
            parts.window.as_ptr(),
            parts.window.len(),
            parts.heap.as_ptr(),
            parts.heap.len(),
            parts.sinit.as_ptr(),
            parts.sinit.len(),
            parts.record.as_ptr(),
            parts.record.len(),
            parts.stm.as_ptr(),
            parts.stm.len(),
            platform.window_base,
            platform.heap_base,
            platform.sinit_base,
            platform.dpr_base,
            platform.dpr_size,
            platform.acram_capacity,
            platform.vendor,
            platform.device,
            platform.revision,
            reserved_count,
            &reserved,
            pages.as_mut_ptr(),
            pages.len(),
            &mut counts,
            &mut place,
            &mut digest,
            &mut measurement,
        )
    };
    (Answer { number, pages: counts[0], list: counts[1], place: place[0], digest }, measurement)
}

pub fn check_capture(capture: &[u8], pages: &mut [u64]) -> Answer {
    let (mut counts, mut place) = ([0u32; 2], [0u32; 1]);
    let mut digest = [0u8; 32];
    // SAFETY: as in `check_measured`.
    let number = unsafe {
        bleiwurzel_check_capture(
            capture.as_ptr(),
            capture.len(),
            pages.as_mut_ptr(),
            pages.len(),
            &mut counts,
            &mut place,
            &mut digest,
        )
    };
    Answer { number, pages: counts[0], list: counts[1], place: place[0], digest }
}

/// The number of a string, how many lists it has, and the place of a 27.
pub fn policy(file: &[u8]) -> (u32, u64, u64) {
    let (mut lists, mut place) = ([0u64; 1], [0u64; 1]);
    // SAFETY: the slice lends its bytes for reading, and the two arrays are this function's own.
    let number = unsafe { bleiwurzel_policy(file.as_ptr(), file.len(), &mut lists, &mut place) };
    (number, lists[0], place[0])
}

/// The kind of list i, and its fields.
pub fn policy_list(file: &[u8], i: usize) -> (u32, [u64; 9]) {
    let mut fields = [0u64; 9];
    // SAFETY: as in `policy`.
    let kind = unsafe { bleiwurzel_policy_list(file.as_ptr(), file.len(), i, &mut fields) };
    (kind, fields)
}

/// The kind of the list at an offset, and its fields.
pub fn policy_list_at(file: &[u8], at: usize) -> (u32, [u64; 9]) {
    let mut fields = [0u64; 9];
    // SAFETY: as in `policy`.
    let kind = unsafe { bleiwurzel_policy_list_at(file.as_ptr(), file.len(), at, &mut fields) };
    (kind, fields)
}

/// The kind of element j of list i, and its fields.
pub fn policy_element(file: &[u8], i: usize, j: usize) -> (u32, [u64; 8]) {
    let mut fields = [0u64; 8];
    // SAFETY: as in `policy`.
    let kind = unsafe { bleiwurzel_policy_element(file.as_ptr(), file.len(), i, j, &mut fields) };
    (kind, fields)
}

/// The kind of the element at an offset, and its fields.
pub fn policy_element_at(file: &[u8], at: usize) -> (u32, [u64; 8]) {
    let mut fields = [0u64; 8];
    // SAFETY: as in `policy`.
    let kind = unsafe { bleiwurzel_policy_element_at(file.as_ptr(), file.len(), at, &mut fields) };
    (kind, fields)
}

/// The number of a description, and the length and the record of the file that was written, zeros where none was.
pub fn policy_write(
    numbers: &[u32],
    bodies: &[u8],
    fields: &[u8; RECORD_FIELDS],
    file: &mut [u8],
) -> (u32, u64, [u8; RECORD_LENGTH]) {
    let (mut length, mut record) = ([0u64; 1], [0u8; RECORD_LENGTH]);
    // SAFETY: each slice is passed with its own length; three are lent for reading and one for writing, and the borrow keeps the latter
    // apart from them. The two arrays are this function's own.
    let number = unsafe {
        bleiwurzel_policy_write(
            numbers.as_ptr(),
            numbers.len(),
            bodies.as_ptr(),
            bodies.len(),
            fields,
            file.as_mut_ptr(),
            file.len(),
            &mut length,
            &mut record,
        )
    };
    (number, length[0], record)
}

pub fn sha256(message: &[u8]) -> [u8; 32] {
    let mut digest = [0u8; 32];
    // SAFETY: as in `policy`.
    unsafe { bleiwurzel_sha256(message.as_ptr(), message.len(), &mut digest) };
    digest
}

pub fn rsa_verify(key: &[u8], signature: &[u8], message: &[u8]) -> bool {
    // SAFETY: each slice is passed with its own length, and is lent for reading.
    unsafe {
        bleiwurzel_rsa_verify(key.as_ptr(), key.len(), signature.as_ptr(), signature.len(), message.as_ptr(), message.len())
    }
}
