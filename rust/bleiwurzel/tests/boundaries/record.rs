//! Rules 23 to 25: the policy record, modules that are not production worthy, and AcmVersion. The module's flags have 16 bits, so there
//! is no flag 16 to be set.

use crate::common::*;

/// A LIST policy that permits, with a record whose SINITMinVersion is the module's AcmVersion, 5.
fn listed() -> Image {
    let mut image = under_list(&spread(BASE));
    image.record[5] = 5;
    image
}

fn field(i: &mut Image, at: usize, number: u64, width: usize) {
    put(&mut i.record, at, number, width);
}

#[test]
fn fields() {
    hold(
        &listed(),
        &[
            ("70 bytes", |_| (), 0),
            ("69 bytes", |i| i.record.truncate(69), 23),
            ("71 bytes", |i| i.record.push(0), 23),
            ("no bytes", |i| i.record.clear(), 23),
            ("version 0x03ff", |i| field(i, 0, 0x03ff, 2), 0),
            ("version 0x02ff", |i| field(i, 0, 0x02ff, 2), 23),
            ("version 0x0400", |i| field(i, 0, 0x0400, 2), 23),
            ("version 0x0003", |i| field(i, 0, 0x0003, 2), 23),
            ("HashAlg 0x000c", |i| field(i, 2, 0x000c, 2), 23),
            ("HashAlg 0x000a", |i| field(i, 2, 0x000a, 2), 23),
            ("HashAlg 0x0b00", |i| field(i, 2, 0x0b00, 2), 23),
            ("type 1", |i| field(i, 4, 1, 1), 0),
            ("type 2", |i| field(i, 4, 2, 1), 23),
            ("type 255", |i| field(i, 4, 255, 1), 23),
            (
                "revocation counters, masks and others of ones",
                |i| {
                    i.record[6..22].fill(0xff);
                    i.record[26..38].fill(0xff);
                },
                0,
            ),
        ],
    );
}

/// Of LcpHashAlgMask the bit of SHA-256 counts and no other, under ANY too.
#[test]
fn hash_alg_mask() {
    fn mask(i: &mut Image, mask: u64) {
        field(i, HASH_ALG_MASK, mask, 2);
    }
    /// What stands before and behind it is all ones.
    fn between(i: &mut Image, number: u64) {
        i.record[26..38].fill(0xff);
        mask(i, number);
    }
    for good in [listed(), spread(BASE)] {
        hold(
            &good,
            &[
                ("0x0008", |i| mask(i, 0x0008), 0),
                ("0x0000", |i| mask(i, 0x0000), 23),
                ("0xffff", |i| mask(i, 0xffff), 0),
                ("0xfff7", |i| mask(i, 0xfff7), 23),
                ("0x0004", |i| mask(i, 0x0004), 23),
                ("0x000c", |i| mask(i, 0x000c), 0),
                ("0x0010", |i| mask(i, 0x0010), 23),
                ("0x0007", |i| mask(i, 0x0007), 23),
                ("0x0800, with its bytes exchanged", |i| mask(i, 0x0800), 23),
                ("0x0808", |i| mask(i, 0x0808), 0),
                ("0x000b, as HashAlg is", |i| mask(i, 0x000b), 0),
                ("0x0061, as SHA-1, SM3 and SHA-384 are", |i| mask(i, 0x0061), 23),
                ("0x0008 between ones", |i| between(i, 0x0008), 0),
                ("0x0000 between ones", |i| between(i, 0x0000), 23),
            ],
        );
    }
    for (bit, mut image) in (0..16).flat_map(|bit| [(bit, listed()), (bit, spread(BASE))]) {
        let name = format!("bit {bit} alone");
        mask(&mut image, 1 << bit);
        assert_eq!(asked(&name, &image).number, if bit == 3 { 0 } else { 23 }, "{name}");
    }
}

/// It comes behind rule 22, and before 24 to 26.
#[test]
fn order_of_the_hash_alg_mask() {
    /// A mask of 0, and something else that is wrong.
    fn and(i: &mut Image, change: fn(&mut Image)) {
        i.record[HASH_ALG_MASK] = 0;
        change(i);
    }
    fn header(i: &mut Image) {
        i.window[ONE * PAGE] ^= 1;
    }
    fn debug(i: &mut Image) {
        put(&mut i.sinit, 14, 0x8000, 2);
    }
    fn version(i: &mut Image) {
        i.record[5] = 6;
    }
    fn no_file(i: &mut Image) {
        put(&mut i.heap, POLICY_SIZE, 0, 8);
    }
    for good in [listed(), spread(BASE)] {
        hold(
            &good,
            &[
                ("an MLE header without its UUID", header, 22),
                ("an MLE header without its UUID, and a mask of 0", |i| and(i, header), 22),
                ("a debug module", debug, 24),
                ("a debug module, and a mask of 0", |i| and(i, debug), 23),
                ("SINITMinVersion above AcmVersion", version, 25),
                ("SINITMinVersion above AcmVersion, and a mask of 0", |i| and(i, version), 23),
            ],
        );
    }
    let both: Case = ("no policy file, and a mask of 0", |i| and(i, no_file), 23);
    hold(&listed(), &[("no policy file", no_file, 26), both]);
    hold(&spread(BASE), &[("no policy file, under ANY", no_file, 0), both]);
}

/// Under LIST the list is reported, under ANY 255, whatever the policy file is.
#[test]
fn kinds() {
    let mut image = listed();
    assert_eq!(asked("LIST", &image).list, 0);
    image.record[4] = 1;
    assert_eq!(asked("ANY", &image).list, 255);
    put(&mut image.heap, POLICY_SIZE, 0, 8);
    assert_eq!((asked("ANY, no file", &image).number, asked("ANY, no file", &image).list), (0, 255));
    image.record[4] = 0;
    assert_eq!(asked("LIST, no file", &image).number, 26);
}

#[test]
fn production() {
    fn flags(i: &mut Image, flags: u64, control: u64) {
        put(&mut i.sinit, 14, flags, 2);
        field(i, 22, control, 4);
    }
    for good in [listed(), spread(BASE)] {
        hold(
            &good,
            &[
                ("bit 14", |i| flags(i, 0x4000, 0), 24),
                ("bit 15", |i| flags(i, 0x8000, 0), 24),
                ("bits 14 and 15", |i| flags(i, 0xc000, 0), 24),
                ("bits 0 to 13", |i| flags(i, 0x3fff, 0), 0),
                ("bit 13", |i| flags(i, 0x2000, 0), 0),
                ("bit 14 with control bit 1", |i| flags(i, 0x4000, 2), 0),
                ("bit 15 with control bit 1", |i| flags(i, 0x8000, 2), 0),
                ("all bits with control bit 1", |i| flags(i, 0xffff, 2), 0),
                ("bit 14 with control bit 0", |i| flags(i, 0x4000, 1), 24),
                ("bit 14 with control bit 2", |i| flags(i, 0x4000, 4), 24),
                ("bit 14 with all control bits but bit 1", |i| flags(i, 0x4000, 0xffff_fffd), 24),
            ],
        );
    }
}

/// SINITMinVersion of the record, and AcmVersion with its neighbours in the information table.
#[test]
fn versions() {
    fn pair(i: &mut Image, least: u8, own: u8) {
        i.record[5] = least;
        i.sinit[ACM_VERSION] = own;
    }
    fn neighbour(i: &mut Image, at: usize) {
        pair(i, 6, 5);
        i.sinit[at] = 0xff;
    }
    for good in [listed(), spread(BASE)] {
        hold(
            &good,
            &[
                ("SINITMinVersion 5, AcmVersion 5", |i| pair(i, 5, 5), 0),
                ("SINITMinVersion 6, AcmVersion 5", |i| pair(i, 6, 5), 25),
                ("SINITMinVersion 0, AcmVersion 0", |i| pair(i, 0, 0), 0),
                ("SINITMinVersion 255, AcmVersion 255", |i| pair(i, 255, 255), 0),
                ("SINITMinVersion 255, AcmVersion 254", |i| pair(i, 255, 254), 25),
                ("SINITMinVersion 6, AcmVersion 5, the byte before it 255", |i| neighbour(i, ACM_VERSION - 1), 25),
                ("SINITMinVersion 6, AcmVersion 5, the byte behind it 255", |i| neighbour(i, ACM_VERSION + 1), 25),
            ],
        );
    }
}
