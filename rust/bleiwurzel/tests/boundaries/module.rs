//! Rules 6 to 11: the module's place, header, GDT and entry, information table, chipset list and versions. The rules from 8 on are held for both
//! editions of the header by one table each, whose offsets are counted from E and from the module's end.
//!
//! A version of OsSinitData above 7 is 3 before it could be 11, so 11 is shown by OsSinitDataVer below 6 and 7.

use crate::common::*;

/// With a module of 768 bytes and header version 0.0.
fn good() -> Image {
    spread(BASE)
}

/// With a module of 1,024 bytes and header version 3.0.
fn newer() -> Image {
    Image { sinit: module_with(HEADER_3_0, 1024), ..good() }
}

fn hold_both(cases: &[Case]) {
    hold(&good(), cases);
    hold(&newer(), cases);
}

/// E without a scratch area.
fn e(i: &Image) -> usize {
    i.information()
}

fn header(i: &Image) -> Header {
    if e(i) == INFORMATION {
        HEADER_0_0
    } else {
        HEADER_3_0
    }
}

fn end(i: &Image) -> usize {
    i.sinit.len()
}

/// Writes a field of 4 bytes.
fn field(i: &mut Image, at: usize, number: u64) {
    put(&mut i.sinit, at, number, 4);
}

fn byte(i: &mut Image, at: usize, number: u8) {
    i.sinit[at] = number;
}

/// A module of another length, with the same header.
fn length(i: &mut Image, length: usize) {
    i.sinit = module_with(header(i), length);
}

#[test]
fn place() {
    hold(
        &good(),
        &[
            ("SINIT base 0x7f000000", |i| i.platform.sinit_base = 0x7f00_0000, 0),
            ("SINIT base 0x7f000001", |i| i.platform.sinit_base = 0x7f00_0001, 6),
            ("SINIT base 0x7f000800", |i| i.platform.sinit_base = 0x7f00_0800, 6),
            ("SINIT base 0x7f000fff", |i| i.platform.sinit_base = 0x7f00_0fff, 6),
            ("SINIT base 0x7f001000", |i| i.platform.sinit_base = 0x7f00_1000, 0),
            ("SINIT base 0", |i| i.platform.sinit_base = 0, 0),
            ("no bytes", |i| i.sinit.clear(), 6),
            ("832 bytes", |i| length(i, 832), 0),
            ("831 bytes", |i| length(i, 831), 6),
            ("800 bytes", |i| length(i, 800), 6),
            ("ACRAM capacity 768", |i| i.platform.acram_capacity = 768, 0),
            ("ACRAM capacity 767", |i| i.platform.acram_capacity = 767, 6),
            ("ACRAM capacity 0", |i| i.platform.acram_capacity = 0, 6),
            ("ACRAM capacity 2^64 - 1", |i| i.platform.acram_capacity = u64::MAX, 0),
        ],
    );
}

/// The first bytes of a module with this header, and a version written into it.
fn cut(i: &mut Image, header: Header, version: u64, bytes: usize) {
    i.sinit = module_with(header, 1024);
    put(&mut i.sinit, 8, version, 4);
    put(&mut i.sinit, 24, bytes as u64 / 4, 4);
    i.sinit.truncate(bytes);
}

/// The version alone picks the least length, and one that is not known keeps 704. Where it is met, a header that mixes the editions is 7.
#[test]
fn least_length() {
    const OLD: Header = HEADER_0_0;
    const NEW: Header = HEADER_3_0;
    hold(
        &good(),
        &[
            ("version 0.0, 704 bytes", |i| cut(i, OLD, 0, 704), 0),
            ("version 0.0, 640 bytes", |i| cut(i, OLD, 0, 640), 6),
            ("version 3.0, 960 bytes", |i| cut(i, NEW, 0x3_0000, 960), 0),
            ("version 3.0, 896 bytes", |i| cut(i, NEW, 0x3_0000, 896), 6),
            ("version 3.0, 704 bytes", |i| cut(i, NEW, 0x3_0000, 704), 6),
            ("version 3.0, 640 bytes", |i| cut(i, NEW, 0x3_0000, 640), 6),
            ("version 3.0 and the rest of 0.0, 960 bytes", |i| cut(i, OLD, 0x3_0000, 960), 7),
            ("version 3.0 and the rest of 0.0, 896 bytes", |i| cut(i, OLD, 0x3_0000, 896), 6),
            ("version 3.0 and the rest of 0.0, 704 bytes", |i| cut(i, OLD, 0x3_0000, 704), 6),
            ("version 0.0 and the rest of 3.0, 896 bytes", |i| cut(i, NEW, 0, 896), 7),
            ("version 0.0 and the rest of 3.0, 704 bytes", |i| cut(i, NEW, 0, 704), 7),
            ("version 0.0 and the rest of 3.0, 640 bytes", |i| cut(i, NEW, 0, 640), 6),
            ("version 1, 704 bytes", |i| cut(i, OLD, 1, 704), 7),
            ("version 1, 640 bytes", |i| cut(i, OLD, 1, 640), 6),
            ("version 0x0300, 704 bytes", |i| cut(i, NEW, 0x300, 704), 7),
            ("version 0x0300, 640 bytes", |i| cut(i, NEW, 0x300, 640), 6),
            ("version 0x00030001, 704 bytes", |i| cut(i, NEW, 0x3_0001, 704), 7),
            ("version 0x00030001, 640 bytes", |i| cut(i, NEW, 0x3_0001, 640), 6),
            ("version 0x01030000, 704 bytes", |i| cut(i, NEW, 0x103_0000, 704), 7),
            ("version 0x0002ffff, 704 bytes", |i| cut(i, NEW, 0x2_ffff, 704), 7),
            ("version 3.0, 992 bytes, which is no multiple of 64", |i| cut(i, NEW, 0x3_0000, 992), 6),
        ],
    );
}

#[test]
fn ends() {
    fn at(i: &mut Image, base: u64, bytes: usize) {
        i.platform.sinit_base = base;
        length(i, bytes);
    }
    hold(
        &good(),
        &[
            ("end 64 below 2^32", |i| at(i, 0xffff_f000, 4032), 0),
            ("end 2^32", |i| at(i, 0xffff_f000, 4096), 6),
            ("base 2^32", |i| at(i, 1 << 32, 768), 6),
            ("base 2^64 - 4096", |i| at(i, 0u64.wrapping_sub(4096), 768), 6),
            ("end that wraps to 0", |i| at(i, 0u64.wrapping_sub(4096), 4096), 6),
        ],
    );
}

#[test]
fn fixed_fields() {
    hold_both(&[
        ("type 1", |i| put(&mut i.sinit, 0, 1, 2), 7),
        ("type 3", |i| put(&mut i.sinit, 0, 3, 2), 7),
        ("type 0x0102", |i| put(&mut i.sinit, 0, 0x0102, 2), 7),
        ("sub-type 1", |i| put(&mut i.sinit, 2, 1, 2), 0),
        ("vendor 0x8085", |i| field(i, 16, 0x8085), 7),
        ("vendor 0x8087", |i| field(i, 16, 0x8087), 7),
        ("vendor 0x00018086", |i| field(i, 16, 0x1_8086), 7),
        ("size 1 too small", |i| field(i, 24, end(i) as u64 / 4 - 1), 7),
        ("size as it is", |i| field(i, 24, end(i) as u64 / 4), 0),
        ("size 1 too great", |i| field(i, 24, end(i) as u64 / 4 + 1), 7),
        ("size and 2^30, which wraps times 4", |i| field(i, 24, end(i) as u64 / 4 + (1 << 30)), 7),
        ("flags 0x3fff", |i| put(&mut i.sinit, 14, 0x3fff, 2), 0),
    ]);
}

/// Of each field that an edition settles, what is on both sides of its number; 320 and 0300H are what the text of Intel's guide says of 3.0.
#[test]
fn editions() {
    hold(
        &good(),
        &[
            ("HeaderLen 160", |i| field(i, 4, 160), 7),
            ("HeaderLen 161", |i| field(i, 4, 161), 0),
            ("HeaderLen 162", |i| field(i, 4, 162), 7),
            ("version 1", |i| field(i, 8, 1), 7),
            ("version 2^32 - 1", |i| field(i, 8, 0xffff_ffff), 7),
            ("KeySize 63", |i| field(i, 120, 63), 7),
            ("KeySize 64", |i| field(i, 120, 64), 0),
            ("KeySize 65", |i| field(i, 120, 65), 7),
        ],
    );
    hold(
        &newer(),
        &[
            ("HeaderLen 223", |i| field(i, 4, 223), 7),
            ("HeaderLen 224", |i| field(i, 4, 224), 0),
            ("HeaderLen 225", |i| field(i, 4, 225), 7),
            ("HeaderLen 320", |i| field(i, 4, 320), 7),
            ("version 0x0002ffff", |i| field(i, 8, 0x2_ffff), 7),
            ("version 0x00030000", |i| field(i, 8, 0x3_0000), 0),
            ("version 0x00030001", |i| field(i, 8, 0x3_0001), 7),
            ("version 0x0300", |i| field(i, 8, 0x300), 7),
            ("version 3", |i| field(i, 8, 3), 7),
            ("KeySize 95", |i| field(i, 120, 95), 7),
            ("KeySize 96", |i| field(i, 120, 96), 0),
            ("KeySize 97", |i| field(i, 120, 97), 7),
        ],
    );
}

/// Version, HeaderLen and KeySize of either edition in all eight ways: those of one edition pass, every mix of the two is 7.
#[test]
fn mixed_editions() {
    for which in 0..8 {
        let [version, words, key_words] = [1, 2, 4].map(|bit| if which & bit == 0 { HEADER_0_0 } else { HEADER_3_0 });
        let own = Header { version: version.version, words: words.words, key_words: key_words.key_words };
        let image = Image { sinit: module_with(own, 1024), ..good() };
        let expected = if [0, 7].contains(&which) { 0 } else { 7 };
        let name = format!("version {:#x}, HeaderLen {}, KeySize {}", own.version, own.words, own.key_words);
        assert_eq!(asked(&name, &image).number, expected, "{name}");
    }
}

#[test]
fn gdt_and_entry() {
    hold_both(&[
        ("GDTBasePtr at E", |i| field(i, 44, e(i) as u64), 0),
        ("GDTBasePtr 1 below E", |i| field(i, 44, e(i) as u64 - 1), 8),
        ("GDTBasePtr + GDTLimit at the last byte", |i| field(i, 44, end(i) as u64 - 24), 0),
        ("GDTBasePtr + GDTLimit at the end", |i| field(i, 44, end(i) as u64 - 23), 8),
        ("GDTBasePtr 2^32 - 1", |i| field(i, 44, 0xffff_ffff), 8),
        ("EntryPoint at E", |i| field(i, 52, e(i) as u64), 0),
        ("EntryPoint 1 below E", |i| field(i, 52, e(i) as u64 - 1), 8),
        ("EntryPoint at the last byte", |i| field(i, 52, end(i) as u64 - 1), 0),
        ("EntryPoint at the end", |i| field(i, 52, end(i) as u64), 8),
        ("E at GDTBasePtr, with no table there", |i| field(i, 124, 9), 9),
        ("E 4 above GDTBasePtr", |i| field(i, 124, 10), 8),
        ("ScratchSize 2^30, which wraps times 4", |i| field(i, 124, 1 << 30), 8),
        ("ScratchSize 2^32 - 1", |i| field(i, 124, 0xffff_ffff), 8),
    ]);
}

#[test]
fn gdt_limit_and_selector() {
    fn selector(i: &mut Image, selector: u64, limit: u64) {
        field(i, 48, selector);
        field(i, 40, limit);
    }
    fn large(i: &mut Image, limit: u64) {
        length(i, 66_496);
        field(i, 44, e(i) as u64);
        field(i, 40, limit);
    }
    hold_both(&[
        ("GDTLimit 65535", |i| large(i, 65_535), 0),
        ("GDTLimit 65536", |i| large(i, 65_536), 8),
        ("SegSel 8, GDTLimit 23", |i| selector(i, 8, 23), 0),
        ("SegSel 8, GDTLimit 22", |i| selector(i, 8, 22), 8),
        ("SegSel 16, GDTLimit 31", |i| selector(i, 16, 31), 0),
        ("SegSel 16, GDTLimit 30", |i| selector(i, 16, 30), 8),
        ("SegSel 0, GDTLimit 31", |i| selector(i, 0, 31), 8),
        ("SegSel 7, GDTLimit 31", |i| selector(i, 7, 31), 8),
        ("SegSel 9, GDTLimit 31", |i| selector(i, 9, 31), 8),
        ("SegSel 12, GDTLimit 31", |i| selector(i, 12, 31), 8),
        ("SegSel 2^32 - 8, GDTLimit 31", |i| selector(i, 0xffff_fff8, 31), 8),
    ]);
}

#[test]
fn information_table() {
    /// Writes a field of 2 bytes of the table.
    fn table(i: &mut Image, at: usize, number: u64) {
        let at = e(i) + at;
        put(&mut i.sinit, at, number, 2);
    }
    /// The table behind a scratch area of so many words.
    fn behind(i: &mut Image, words: usize) {
        let (at, end) = (e(i) + 4 * words, end(i));
        i.sinit.resize(at + 44, 0);
        put_information(&mut i.sinit, at);
        i.sinit.truncate(end);
        field(i, 44, end as u64 - 24);
        field(i, 52, end as u64 - 1);
        field(i, 124, words as u64);
    }
    /// How many words there are between the header and the last 44 bytes.
    fn most(i: &Image) -> usize {
        (end(i) - e(i) - 44) / 4
    }
    hold_both(&[
        ("UUID with another first byte", |i| byte(i, e(i), 0xab), 9),
        ("UUID with another last byte", |i| byte(i, e(i) + 15, 0x5b), 9),
        ("type 0", |i| byte(i, e(i) + 16, 0), 9),
        ("type 2", |i| byte(i, e(i) + 16, 2), 9),
        ("version 255", |i| byte(i, e(i) + 17, 255), 0),
        ("length 43", |i| table(i, 18, 43), 9),
        ("length 44", |i| table(i, 18, 44), 0),
        ("length 65535", |i| table(i, 18, 65_535), 0),
        ("a table that ends with the module", |i| behind(i, most(i)), 0),
        ("a table that ends 4 bytes behind it", |i| behind(i, most(i) + 1), 9),
    ]);
}

#[test]
fn chipset_list() {
    fn at(i: &mut Image, offset: u64) {
        field(i, e(i) + 20, offset);
    }
    /// A list at an offset that says how many entries it has, of which the first matches.
    fn list(i: &mut Image, offset: usize, count: u64) {
        at(i, offset as u64);
        let end = end(i);
        i.sinit.resize(end + 64, 0);
        put(&mut i.sinit, offset, count, 4);
        put_chipset(&mut i.sinit, offset + 4, 0, 0xb002, 5);
        i.sinit.truncate(end);
    }
    /// Room for 65 entries, of which the one with an index alone matches.
    fn many(i: &mut Image, count: u64, matching: usize) {
        let list = end(i);
        length(i, list + 1088);
        at(i, list as u64);
        put(&mut i.sinit, list, count, 4);
        put_chipset(&mut i.sinit, list + 4 + 16 * matching, 0, 0xb002, 5);
    }
    hold_both(&[
        ("no entry", |i| field(i, CHIPSETS, 0), 10),
        ("a count of 0 that ends with the module", |i| at(i, end(i) as u64 - 4), 10),
        ("a count that ends 1 byte behind it", |i| at(i, end(i) as u64 - 3), 9),
        ("a list at 2^32 - 1", |i| at(i, 0xffff_ffff), 9),
        ("a list at 0, of two entries that do not match", |i| at(i, 0), 10),
        ("2^28 entries, which wrap times 16", |i| field(i, CHIPSETS, 1 << 28), 9),
        ("an entry that ends with the module", |i| list(i, end(i) - 20, 1), 0),
        ("a second entry behind the module", |i| list(i, end(i) - 20, 2), 9),
        ("an entry that ends 1 byte behind it", |i| list(i, end(i) - 19, 1), 9),
        ("64 entries, the last matches", |i| many(i, 64, 63), 0),
        ("65 entries, the first matches", |i| many(i, 65, 0), 9),
        ("65 entries, the last matches", |i| many(i, 65, 64), 9),
        ("63 entries, the one behind them would match", |i| many(i, 63, 63), 10),
        ("64 entries, none matches", |i| many(i, 64, 64), 10),
        (
            "65 entries, none matches",
            |i| {
                many(i, 65, 0);
                i.platform.device = 0xb003;
            },
            9,
        ),
    ]);
}

#[test]
fn chipset_entry() {
    /// An entry with flags and a revision, for a chipset with a revision.
    fn revisions(i: &mut Image, flags: u64, revision: u64, own: u16) {
        put_chipset(&mut i.sinit, ENTRY, flags, 0xb002, revision);
        i.platform.revision = own;
    }
    fn two(i: &mut Image, count: u64) {
        field(i, CHIPSETS, count);
        put_chipset(&mut i.sinit, ENTRY, 0, 0xb003, 5);
        put_chipset(&mut i.sinit, ENTRY + 16, 0, 0xb002, 5);
    }
    hold_both(&[
        ("vendor 0x8087", |i| put(&mut i.sinit, ENTRY + 4, 0x8087, 2), 10),
        ("device 0xb003", |i| put(&mut i.sinit, ENTRY + 6, 0xb003, 2), 10),
        ("revision 4", |i| put(&mut i.sinit, ENTRY + 8, 4, 2), 10),
        ("revision 7", |i| put(&mut i.sinit, ENTRY + 8, 7, 2), 10),
        ("flags 2", |i| field(i, ENTRY, 2), 0),
        ("flags 2^32 - 2", |i| field(i, ENTRY, 0xffff_fffe), 0),
        ("reserved bytes of ones", |i| i.sinit[ENTRY + 10..ENTRY + 16].fill(0xff), 0),
        ("flags 1, revisions 4 and 5", |i| revisions(i, 1, 4, 5), 0),
        ("flags 1, revisions 2 and 5", |i| revisions(i, 1, 2, 5), 10),
        ("flags 1, revisions 5 and 5", |i| revisions(i, 1, 5, 5), 0),
        ("flags 1, revisions 0 and 0", |i| revisions(i, 1, 0, 0), 10),
        ("flags 0, revisions 0 and 0", |i| revisions(i, 0, 0, 0), 0),
        ("flags 0, revisions 4 and 5", |i| revisions(i, 0, 4, 5), 10),
        ("flags 2, revisions 4 and 5", |i| revisions(i, 2, 4, 5), 10),
        ("flags 3, revisions 4 and 5", |i| revisions(i, 3, 4, 5), 0),
        ("flags 1, revisions 0x8000 and 0x8001", |i| revisions(i, 1, 0x8000, 0x8001), 0),
        ("two entries, the second matches", |i| two(i, 2), 0),
        ("one entry, the one behind it would match", |i| two(i, 1), 10),
        ("chipset vendor 0x8085", |i| i.platform.vendor = 0x8085, 10),
        ("chipset device 0xb001", |i| i.platform.device = 0xb001, 10),
        ("chipset revision 6", |i| i.platform.revision = 6, 10),
    ]);
}

/// What rules 22 and 25 read of the information table.
#[test]
fn values() {
    /// MinMleHeaderVer and AcmVersion.
    fn table(i: &mut Image, least_header: u64, own: u8) {
        let table = e(i);
        field(i, table + 28, least_header);
        byte(i, table + 36, own);
    }
    hold_both(&[
        ("MinMleHeaderVer that of the image's header", |i| table(i, 0x2_0003, 5), 0),
        ("MinMleHeaderVer 1 above it", |i| table(i, 0x2_0004, 5), 22),
        (
            "AcmVersion 6, SINITMinVersion 6",
            |i| {
                table(i, 0, 6);
                i.record[5] = 6;
            },
            0,
        ),
        (
            "AcmVersion 5, SINITMinVersion 6",
            |i| {
                table(i, 0, 5);
                i.record[5] = 6;
            },
            25,
        ),
    ]);
}

#[test]
fn versions() {
    fn pair(i: &mut Image, asked: u64, known: u64) {
        put(&mut i.heap, FIELDS, asked, 4);
        field(i, e(i) + 24, known);
    }
    hold_both(&[
        ("OsSinitData version 6, OsSinitDataVer 7", |i| pair(i, 6, 7), 0),
        ("OsSinitData version 7, OsSinitDataVer 7", |i| pair(i, 7, 7), 0),
        ("OsSinitData version 7, OsSinitDataVer 6", |i| pair(i, 7, 6), 11),
        ("OsSinitData version 6, OsSinitDataVer 6", |i| pair(i, 6, 6), 0),
        ("OsSinitData version 6, OsSinitDataVer 5", |i| pair(i, 6, 5), 11),
        ("OsSinitData version 7, OsSinitDataVer 2^32 - 1", |i| pair(i, 7, 0xffff_ffff), 0),
        ("OsSinitData version 7, OsSinitDataVer 2^31", |i| pair(i, 7, 1 << 31), 0),
    ]);
}
