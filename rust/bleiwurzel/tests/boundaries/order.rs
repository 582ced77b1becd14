//! The order of the rules: where two fail, the lower number is given. 14 to 20 follow the walk, so two of them are not tried together
//! here but in `walk`, `protection` and `tables`.

use crate::common::*;
use crate::regions::{hold_answered, Answered::*};
use plain_sha256::digest_in_parts;

/// A LIST policy that permits.
fn good() -> Image {
    let image = spread(BASE);
    let digest = digest_in_parts(&image.bytes(), 0);
    with_lists(&image, &[list(&[launch(5, &[digest])])])
}

/// For each number one change that makes that rule fail and none before it: of 20 one for the base and one for a page, and of 23 one for the type
/// and one for LcpHashAlgMask. Two that are tried together touch different bytes.
const FAULTS: [(u32, fn(&mut Image)); 31] = [
    (1, |i| i.platform.dpr_base = u64::MAX),
    (2, |i| put(&mut i.heap, BIOS_DATA, 7, 8)),
    (3, |i| put(&mut i.heap, FIELDS, 5, 4)),
    (4, |i| put(&mut i.heap, ELEMENTS + 4, 9, 4)),
    (5, |i| put(&mut i.heap, LOW + 8, (1 << 32) + 1, 8)),
    (6, |i| i.platform.acram_capacity = 767),
    (7, |i| put(&mut i.sinit, 120, 63, 4)),
    (8, |i| put(&mut i.sinit, 48, 0, 4)),
    (9, |i| i.sinit[INFORMATION + 16] = 0),
    (10, |i| i.platform.vendor = 0x8085),
    (11, |i| put(&mut i.sinit, INFORMATION + 24, 4, 4)),
    (12, |i| i.heap[MLE_SIZE] = 1),
    (13, |i| i.places = 0),
    (14, |i| i.entry_bits(POINTERS, 1, 1 << 63 | 1)),
    (15, |i| i.entry(POINTERS, 1, 0x1000)),
    (16, |i| i.entry(POINTERS, 1, 0)),
    (17, |i| i.platform.heap_base = BASE + (TWO * PAGE) as u64),
    (18, |i| (1..39).for_each(|t| i.entry(DIRECTORY, t, 9 + t))),
    (19, |i| i.entry(TABLE, 3, 11)),
    (20, |i| i.platform.dpr_size = 0),
    (20, |i| i.platform.dpr_size = (TWO * PAGE) as u64),
    (21, |i| i.heap[MLE_SIZE + 1] = 0x10),
    (22, |i| i.window[ONE * PAGE] ^= 1),
    (23, |i| i.record[4] = 2),
    (23, |i| i.record[HASH_ALG_MASK] = 0),
    (24, |i| put(&mut i.sinit, 14, 0x4000, 2)),
    (25, |i| i.record[5] = 6),
    (26, |i| i.heap[POLICY_SIZE] += 1),
    (27, |i| i.window[ALL * PAGE] ^= 1),
    (28, |i| i.record[38] ^= 1),
    (29, |i| i.window[TWO * PAGE] ^= 1),
];

/// The two of 20 are what they are meant to be.
#[test]
fn of_the_base_and_of_a_page() {
    let of_20: Vec<fn(&mut Image)> = FAULTS.iter().filter(|(number, _)| *number == 20).map(|(_, fault)| *fault).collect();
    hold_answered(&good(), &[("the base", of_20[0], Table(POINTERS, "pointer table")), ("a page", of_20[1], Page(TWO))]);
}

fn in_the_walk(number: u32) -> bool {
    (14..=20).contains(&number)
}

#[test]
fn each_alone_and_each_two() {
    assert_eq!(asked("no fault", &good()).number, 0);
    for (number, fault) in FAULTS {
        let mut image = good();
        fault(&mut image);
        assert_eq!(asked(&format!("{number} alone"), &image).number, number, "{number} alone");
    }
    for (lower, first) in FAULTS {
        for (higher, second) in FAULTS.iter().filter(|(higher, _)| *higher > lower) {
            if in_the_walk(lower) && in_the_walk(*higher) {
                continue;
            }
            let mut image = good();
            second(&mut image);
            first(&mut image);
            let name = format!("{lower} and {higher}");
            assert_eq!(asked(&name, &image).number, lower, "{name}");
        }
    }
}
