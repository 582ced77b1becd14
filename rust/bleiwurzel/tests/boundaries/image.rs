//! Rules 12, 13, 21 and 22: MLE Size, the page list, the number of pages and the MLE header. The digest and the page list of every
//! permission are compared; images of 16,384 pages, and page lists of many lengths, stand in tests/images.rs.
//!
//! The first linear page and the number of pages are the walk's, so a header cannot be asked about others; pages outside the window are
//! 15, pages that do not ascend 16, and absent ones 21, before a header or a digest could be asked of them. An MLE Size that MleStart and
//! MleEnd could meet only by wrapping is 12.

use crate::common::*;

/// The linear pages 1535 and 1536, which two page tables map, lie at two pages of the window, of which the first has the header.
fn at(one: usize, two: usize) -> Image {
    let mut image = spread(BASE);
    image.window[DIRECTORY * PAGE..].fill(0);
    image.entry(DIRECTORY, 2, TABLE);
    image.entry(DIRECTORY, 3, TABLE + 1);
    image.entry(TABLE, 511, one);
    image.entry(TABLE + 1, 0, two);
    image.maps(1535, &[one, two]);
    image
}

/// The linear address of the first page.
const LINEAR: u64 = 1535 * 0x1000;

fn mle_size(i: &mut Image, size: u64) {
    put(&mut i.heap, MLE_SIZE, size, 8);
}

#[test]
fn sizes() {
    fn one_page(i: &mut Image) {
        i.entry_bits(TABLE, 1, 0);
        i.maps(0, &[ONE]);
    }
    hold(
        &spread(BASE),
        &[
            ("MLE Size 0", |i| mle_size(i, 0), 12),
            ("MLE Size 1", |i| mle_size(i, 1), 12),
            ("MLE Size 4095", |i| mle_size(i, 4095), 12),
            ("MLE Size 4096", one_page, 0),
            ("MLE Size 4097", |i| mle_size(i, 4097), 12),
            ("MLE Size 8192", |i| mle_size(i, 8192), 0),
            ("MLE Size of 16,384 pages less 1 byte", |i| mle_size(i, (1 << 26) - 1), 12),
            ("MLE Size of 16,384 pages", |i| mle_size(i, 1 << 26), 21),
            ("MLE Size of 16,384 pages and 1 byte", |i| mle_size(i, (1 << 26) + 1), 12),
            ("MLE Size of 16,385 pages", |i| mle_size(i, (1 << 26) + 4096), 12),
            ("MLE Size 2^63", |i| mle_size(i, 1 << 63), 12),
            ("MLE Size 8192 + 2^32", |i| mle_size(i, (1 << 32) + 8192), 12),
            ("MLE Size 2^64 - 1", |i| mle_size(i, u64::MAX), 12),
        ],
    );
}

#[test]
fn counts() {
    hold(
        &spread(BASE),
        &[
            ("no place", |i| i.places = 0, 13),
            ("1 place", |i| i.places = 1, 13),
            ("2 places", |i| i.places = 2, 0),
            ("4 places", |i| i.places = 4, 0),
            ("1 page said", |i| mle_size(i, 4096), 21),
            ("3 pages said", |i| mle_size(i, 3 * 4096), 21),
            ("3 pages mapped", |i| i.entry(TABLE, 2, 11), 21),
            ("1 page mapped", |i| i.entry_bits(TABLE, 1, 0), 21),
        ],
    );
}

#[test]
fn pages_and_their_digest() {
    hold(
        &at(10, 12),
        &[
            ("pages 10 and 12", |_| (), 0),
            ("pages 11 and 12", |i| *i = at(11, 12), 0),
            ("pages 12 and 10", |i| *i = at(12, 10), 16),
            ("page 10 twice", |i| *i = at(10, 10), 16),
            ("a page behind the window", |i| i.entry(TABLE + 1, 0, ALL), 15),
        ],
    );
}

#[test]
fn header_place() {
    fn base(i: &mut Image, base: u64) {
        put(&mut i.heap, HEADER_BASE, base, 8);
    }
    /// The header at an offset of the first page. The second page lies behind it in physical memory too.
    fn offset(i: &mut Image, offset: usize) {
        let first = i.header(0);
        i.window[first..first + 52].fill(7);
        put_header(&mut i.window, first + offset, 1535, 2);
        base(i, LINEAR + offset as u64);
    }
    hold(
        &at(10, 11),
        &[
            ("offset 0", |i| offset(i, 0), 0),
            ("offset 1", |i| offset(i, 1), 0),
            ("offset 4044", |i| offset(i, 4044), 0),
            ("offset 4045", |i| offset(i, 4045), 22),
            ("offset 4095", |i| offset(i, 4095), 22),
        ],
    );
    let mut twice = at(10, 12);
    put_header(&mut twice.window, 10 * PAGE + 0x100, 1535, 2);
    put_header(&mut twice.window, 12 * PAGE + 0x100, 1535, 2);
    hold(
        &twice,
        &[
            ("in the first page", |i| base(i, LINEAR + 0x100), 0),
            ("in the second page", |i| base(i, LINEAR + 0x1100), 0),
            ("in the page before", |i| base(i, LINEAR - 0xf00), 22),
            ("in the page behind", |i| base(i, LINEAR + 0x2100), 22),
            ("at the end of the last page", |i| base(i, LINEAR + 0x2000), 22),
            ("52 bytes before the first page", |i| base(i, LINEAR - 52), 22),
            ("1 byte on", |i| base(i, LINEAR + 0x101), 22),
            ("in linear page 0", |i| base(i, 0x100), 22),
            ("512 pages before", |i| base(i, LINEAR + 0x100 - 0x20_0000), 22),
            ("2^30 on", |i| base(i, (1 << 30) + LINEAR + 0x100), 22),
            ("2^32 on", |i| base(i, (1 << 32) + LINEAR + 0x100), 22),
            ("2^63 on", |i| base(i, (1 << 63) + LINEAR + 0x100), 22),
            ("in the last linear page of 64 bits", |i| base(i, u64::MAX - 0xfff), 22),
        ],
    );
}

#[test]
fn header_fields() {
    fn field(i: &mut Image, at: usize, number: u64) {
        let at = i.header(at);
        put(&mut i.window, at, number, 4);
    }
    fn byte(i: &mut Image, at: usize, number: u8) {
        let at = i.header(at);
        i.window[at] = number;
    }
    fn from_to(i: &mut Image, start: u64, end: u64) {
        field(i, 32, start);
        field(i, 36, end);
    }
    const END: u64 = LINEAR + 0x2000;
    hold(
        &at(10, 12),
        &[
            ("UUID byte 0 0x5a", |i| byte(i, 0, 0x5a), 0),
            ("UUID byte 0 0x5b", |i| byte(i, 0, 0x5b), 22),
            ("UUID byte 7 0x75", |i| byte(i, 7, 0x75), 22),
            ("UUID byte 8 0x0e", |i| byte(i, 8, 0x0e), 22),
            ("UUID byte 15 0x43", |i| byte(i, 15, 0x43), 22),
            ("HeaderLen 51", |i| field(i, 16, 51), 22),
            ("HeaderLen 52", |i| field(i, 16, 52), 0),
            ("HeaderLen 53", |i| field(i, 16, 53), 0),
            ("HeaderLen 2^32 - 1", |i| field(i, 16, 0xffff_ffff), 0),
            ("HeaderLen 0", |i| field(i, 16, 0), 22),
            ("version 0x20002, below MinMleHeaderVer", |i| field(i, 20, 0x2_0002), 22),
            ("version 0x20003, equal to it", |i| field(i, 20, 0x2_0003), 0),
            ("version 0x20004", |i| field(i, 20, 0x2_0004), 0),
            ("version 0x1ffff", |i| field(i, 20, 0x1_ffff), 22),
            ("version 0x30000", |i| field(i, 20, 0x3_0000), 0),
            ("MinMleHeaderVer 2^32 - 1", |i| put(&mut i.sinit, INFORMATION + 28, 0xffff_ffff, 4), 22),
            (
                "MinMleHeaderVer and version 2^32 - 1",
                |i| {
                    put(&mut i.sinit, INFORMATION + 28, 0xffff_ffff, 4);
                    field(i, 20, 0xffff_ffff);
                },
                0,
            ),
            ("EntryPoint 1 before the first page", |i| field(i, 24, LINEAR - 1), 22),
            ("EntryPoint in the first byte", |i| field(i, 24, LINEAR), 0),
            ("EntryPoint in the last byte", |i| field(i, 24, END - 1), 0),
            ("EntryPoint behind the last byte", |i| field(i, 24, END), 22),
            ("EntryPoint 0", |i| field(i, 24, 0), 22),
            ("EntryPoint 2^32 - 1", |i| field(i, 24, 0xffff_ffff), 22),
            ("FirstValidPage a page before", |i| field(i, 28, LINEAR - 0x1000), 22),
            ("FirstValidPage the first page's address", |i| field(i, 28, LINEAR), 0),
            ("FirstValidPage the second page's", |i| field(i, 28, LINEAR + 0x1000), 22),
            ("FirstValidPage the first page's number", |i| field(i, 28, 1535), 22),
            ("MleStart 0, MleEnd 8191", |i| from_to(i, 0, 8191), 22),
            ("MleStart 0, MleEnd 8192", |i| from_to(i, 0, 8192), 0),
            ("MleStart 0, MleEnd 8193", |i| from_to(i, 0, 8193), 22),
            ("MleStart 1, MleEnd 8192", |i| from_to(i, 1, 8192), 22),
            ("MleStart 1, MleEnd 8193", |i| from_to(i, 1, 8193), 0),
            ("MleStart 8192, MleEnd 0", |i| from_to(i, 8192, 0), 22),
            ("MleStart 2^32 - 4096, MleEnd 4096", |i| from_to(i, 0xffff_f000, 4096), 22),
            (
                "ones in the fields that no rule names",
                |i| {
                    let at = i.header(40);
                    i.window[at..at + 12].fill(0xff);
                },
                0,
            ),
        ],
    );
}

/// EntryPoint in the last byte of 4 GiB, where the end of the mapped range does not fit 32 bits.
#[test]
fn entry_point_at_4_gib() {
    let mut good = spread(BASE);
    good.window.fill(0);
    good.entry(POINTERS, 3, DIRECTORY);
    good.entry(DIRECTORY, 511, TABLE);
    good.entry(TABLE, 511, ONE);
    good.maps(0xf_ffff, &[ONE]);
    fn entry_point(i: &mut Image, address: u64) {
        let at = i.header(24);
        put(&mut i.window, at, address, 4);
    }
    hold(
        &good,
        &[
            ("EntryPoint 2^32 - 1", |i| entry_point(i, 0xffff_ffff), 0),
            ("EntryPoint 2^32 - 4096", |i| entry_point(i, 0xffff_f000), 0),
            ("EntryPoint 2^32 - 4097", |i| entry_point(i, 0xffff_efff), 22),
        ],
    );
}
