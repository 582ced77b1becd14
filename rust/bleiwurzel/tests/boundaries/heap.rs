//! Rules 2 to 5: the parts of the heap, OsSinitData, its elements and the PMRs.
//!
//! The whole check reads neither flags nor capabilities nor RSDP of OsSinitData, so no case shows from where they are read; its other
//! fields are shown by the tables of the rules that use them.

use crate::common::*;

fn good() -> Image {
    spread(BASE)
}

/// Moves OsSinitData so that it begins at an offset.
fn os_sinit_data_at(i: &mut Image, at: usize) {
    let part = i.heap.split_off(OS_SINIT_DATA);
    i.heap.resize(at, 0);
    i.heap.extend(part);
}

fn size(i: &mut Image, part: usize, size: u64) {
    put(&mut i.heap, part, size, 8);
}

/// OsSinitData of so many bytes, and a heap that ends with it.
fn os_sinit_data(i: &mut Image, bytes: usize) {
    i.heap.resize(OS_SINIT_DATA + bytes.max(8), 0);
    size(i, OS_SINIT_DATA, bytes as u64);
}

#[test]
fn parts() {
    hold(
        &good(),
        &[
            ("parts of 8, 8 and 108 bytes in 124", |_| (), 0),
            ("in 123", |i| i.heap.truncate(123), 2),
            ("OsSinitData of 109 bytes in 125", |i| os_sinit_data(i, 109), 0),
            ("OsSinitData of 109 bytes in 124", |i| size(i, OS_SINIT_DATA, 109), 2),
            ("OsSinitData of 8 bytes, to the heap's end", |i| os_sinit_data(i, 8), 3),
            ("OsSinitData of 7 bytes", |i| os_sinit_data(i, 7), 2),
            ("room for 7 bytes of OsSinitData's size", |i| i.heap.truncate(23), 2),
            ("room for 7 bytes of OsMleData's size", |i| i.heap.truncate(15), 2),
            ("room for 7 bytes of BiosData's size", |i| i.heap.truncate(7), 2),
            ("an empty heap", |i| i.heap.clear(), 2),
        ],
    );
}

/// Sizes of 7 behind which the next part would fit: the size fields overlap, so the next part's size is a multiple of 256.
#[test]
fn least_sizes() {
    fn parts(i: &mut Image, bios: usize, mle: usize) {
        os_sinit_data_at(i, bios + mle);
        size(i, BIOS_DATA, bios as u64);
        size(i, bios, mle as u64);
    }
    hold(
        &good(),
        &[
            ("BiosData of 8 bytes, OsMleData of 256", |i| parts(i, 8, 256), 0),
            ("BiosData of 7 bytes, OsMleData of 256", |i| parts(i, 7, 256), 2),
            ("BiosData of 9 bytes, OsMleData of 256", |i| parts(i, 9, 256), 0),
        ],
    );
    fn last(i: &mut Image, mle: usize) {
        os_sinit_data_at(i, 8 + mle);
        i.heap.resize(8 + mle + 256, 0);
        size(i, OS_MLE_DATA, mle as u64);
        size(i, 8 + mle, 256);
    }
    hold(
        &good(),
        &[
            ("OsMleData of 8 bytes, OsSinitData of 256", |i| last(i, 8), 0),
            ("OsMleData of 7 bytes, OsSinitData of 256", |i| last(i, 7), 2),
            ("OsMleData of 9 bytes, OsSinitData of 256", |i| last(i, 9), 0),
        ],
    );
}

#[test]
fn sums_that_would_wrap() {
    hold(
        &good(),
        &[
            ("BiosData and OsMleData, to 7", |i| size(i, OS_MLE_DATA, u64::MAX), 2),
            ("BiosData and OsMleData, to 0", |i| size(i, OS_MLE_DATA, u64::MAX - 7), 2),
            ("all three, to 0", |i| size(i, OS_SINIT_DATA, u64::MAX - 15), 2),
        ],
    );
}

#[test]
fn bodies_and_fields_that_no_rule_names() {
    hold(
        &good(),
        &[
            (
                "OsMleData with a body of ones",
                |i| {
                    os_sinit_data_at(i, 32);
                    size(i, OS_MLE_DATA, 24);
                    i.heap[16..32].fill(0xff);
                },
                0,
            ),
            ("flags of ones", |i| i.heap[FIELDS + 4..FIELDS + 8].fill(0xff), 0),
            ("capabilities and RSDP of ones", |i| i.heap[FIELDS + 80..FIELDS + 92].fill(0xff), 0),
        ],
    );
}

#[test]
fn os_sinit_data_size_and_version() {
    fn version(i: &mut Image, version: u64) {
        put(&mut i.heap, FIELDS, version, 4);
    }
    hold(
        &good(),
        &[
            ("OsSinitData of 108 bytes", |_| (), 0),
            ("OsSinitData of 107 bytes", |i| size(i, OS_SINIT_DATA, 107), 3),
            ("version 5", |i| version(i, 5), 3),
            ("version 6", |i| version(i, 6), 0),
            ("version 7", |i| version(i, 7), 0),
            ("version 8", |i| version(i, 8), 3),
            ("version 0x00010007", |i| version(i, 0x1_0007), 3),
            ("version 0x07000000", |i| version(i, 0x0700_0000), 3),
        ],
    );
}

/// An element's type and size at an offset from the first element.
fn element(i: &mut Image, at: usize, kind: u64, size: u64) {
    put(&mut i.heap, ELEMENTS + at, kind, 4);
    put(&mut i.heap, ELEMENTS + at + 4, size, 4);
}

/// Room for elements of so many bytes, all of them of type 0 and size 0 at first.
fn room(i: &mut Image, bytes: usize) {
    os_sinit_data(i, 100 + bytes);
    i.heap[ELEMENTS..].fill(0);
}

/// An element and an end directly behind it, which end with the part. A size below 8 makes the two overlap.
fn then_end(i: &mut Image, kind: u64, size: usize) {
    room(i, size + 8);
    element(i, size, 0, 8);
    element(i, 0, kind, size as u64);
}

#[test]
fn skipped_elements() {
    hold(
        &good(),
        &[
            ("an element of 8 bytes, then the end", |i| then_end(i, 1, 8), 0),
            ("an element of 7 bytes, then the end", |i| then_end(i, 1, 7), 4),
            ("an element of 9 bytes, then the end", |i| then_end(i, 1, 9), 0),
            (
                "an element of 9 bytes, and an end 8 bytes on",
                |i| {
                    then_end(i, 1, 8);
                    element(i, 0, 1, 9);
                },
                4,
            ),
            (
                "an element of 0 bytes, and an end 8 bytes on",
                |i| {
                    then_end(i, 1, 8);
                    element(i, 0, 1, 0);
                },
                4,
            ),
            ("an element of type 0x00000100", |i| then_end(i, 0x100, 8), 0),
            ("an element of type 0x01000000", |i| then_end(i, 0x100_0000, 8), 0),
        ],
    );
}

#[test]
fn the_end_element() {
    fn end(i: &mut Image, size: u64) {
        room(i, 16);
        element(i, 0, 0, size);
        element(i, 8, 0, 8);
    }
    hold(
        &good(),
        &[
            ("an end of 8 bytes", |i| end(i, 8), 0),
            ("an end of 7 bytes", |i| end(i, 7), 4),
            ("an end of 9 bytes", |i| end(i, 9), 4),
            ("an end of 16 bytes", |i| end(i, 16), 4),
            ("an end of 0 bytes", |i| end(i, 0), 4),
        ],
    );
}

/// In all of these the heap goes on behind the part, with an end where a reader that goes past the part would find it.
#[test]
fn elements_inside_the_part() {
    fn cut(i: &mut Image, kind: u64, bytes: usize, part: u64) {
        then_end(i, kind, bytes);
        i.heap.resize(ELEMENTS + bytes + 64, 0);
        size(i, OS_SINIT_DATA, 100 + part);
    }
    hold(
        &good(),
        &[
            ("an end whose last byte is the part's", |i| cut(i, 1, 8, 16), 0),
            ("an end with 1 byte behind the part", |i| cut(i, 1, 8, 15), 4),
            ("an element to the part's end, and no end", |i| cut(i, 1, 16, 16), 4),
            ("an element to 1 byte behind the part", |i| cut(i, 1, 17, 16), 4),
            (
                "an element of 2^32 - 1 bytes",
                |i| {
                    cut(i, 1, 8, 16);
                    element(i, 0, 1, 0xffff_ffff);
                },
                4,
            ),
            ("no room for an element's size", |i| cut(i, 1, 8, 12), 4),
        ],
    );
}

#[test]
fn runs_of_elements() {
    hold(
        &good(),
        &[
            (
                "two elements and no end",
                |i| {
                    room(i, 16);
                    element(i, 0, 1, 8);
                    element(i, 8, 1, 8);
                },
                4,
            ),
            (
                "a malformed element behind the end",
                |i| {
                    room(i, 16);
                    element(i, 0, 0, 8);
                    element(i, 8, 1, 7);
                },
                0,
            ),
            (
                "a body that looks like an end, and an end",
                |i| {
                    then_end(i, 1, 16);
                    element(i, 8, 0, 8);
                },
                0,
            ),
            (
                "a body that looks like an end, and no end",
                |i| {
                    then_end(i, 1, 16);
                    element(i, 8, 0, 8);
                    element(i, 16, 1, 8);
                },
                4,
            ),
        ],
    );
}

fn region(i: &mut Image, at: usize, base: u64, size: u64) {
    put(&mut i.heap, at, base, 8);
    put(&mut i.heap, at + 8, size, 8);
}

#[test]
fn low_pmr() {
    hold(
        &good(),
        &[
            ("low PMR to 2^32", |i| region(i, LOW, 0xffe0_0000, 0x20_0000), 0),
            ("low PMR to 2^32 and 1 byte more", |i| region(i, LOW, 0xffe0_0000, 0x20_0001), 5),
            ("low PMR of all 4 GiB", |i| region(i, LOW, 0, 1 << 32), 0),
            ("low PMR of all 4 GiB and 1 byte more", |i| region(i, LOW, 0, (1 << 32) + 1), 5),
            ("low PMR of the last byte below 2^32", |i| region(i, LOW, 0xffff_ffff, 1), 0),
            ("low PMR of the byte at 2^32", |i| region(i, LOW, 1 << 32, 1), 5),
            ("an empty low PMR above 2^32", |i| region(i, LOW, (1 << 32) + 1, 0), 0),
            ("low PMR whose end wraps to 0", |i| region(i, LOW, u64::MAX, 1), 5),
        ],
    );
}

#[test]
fn high_pmr() {
    hold(
        &good(),
        &[
            ("high PMR of the byte at 2^32", |i| region(i, HIGH, 1 << 32, 1), 0),
            ("high PMR of the byte below 2^32", |i| region(i, HIGH, 0xffff_ffff, 1), 5),
            ("high PMR from below 2^32 on", |i| region(i, HIGH, 0xffff_ffff, 0x10_0000), 5),
            ("high PMR from 2^32 to 2^52", |i| region(i, HIGH, 1 << 32, (1 << 52) - (1 << 32)), 0),
            ("high PMR from 2^32 to 2^52 and 1 byte more", |i| region(i, HIGH, 1 << 32, (1 << 52) - (1 << 32) + 1), 5),
            ("high PMR of the last byte below 2^52", |i| region(i, HIGH, (1 << 52) - 1, 1), 0),
            ("high PMR of the byte at 2^52", |i| region(i, HIGH, 1 << 52, 1), 5),
            ("an empty high PMR at 0", |i| region(i, HIGH, 0, 0), 0),
            ("an empty high PMR at 2^64 - 1", |i| region(i, HIGH, u64::MAX, 0), 0),
            ("high PMR whose end wraps to 2^32", |i| region(i, HIGH, 0xffff_ffff_0000_0000, 0x2_0000_0000), 5),
        ],
    );
}
