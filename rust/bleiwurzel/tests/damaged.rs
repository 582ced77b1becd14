//! Damaged copies of images and captures, made in place and with a fixed seed. Each ends with one answer, leaves the page list alone on a
//! refusal, and has the number that the finding comes to; of a policy file the place of its first fault is worked out beside it.

mod common;

use bleiwurzel::capture::Layout;
use bleiwurzel::{answer, answer_capture, capture, finding, policy};
use bleiwurzel::{Answer, Platform, Reserved, MOST_HEAP, MOST_PAGES, MOST_RESERVED, MOST_TABLES, MOST_WINDOW};
use common::*;
use plain_sha256::digest_in_parts;
use std::collections::BTreeMap;

/// xorshift64*, with a fixed seed.
struct Dice(u64);

impl Dice {
    fn next(&mut self) -> u64 {
        self.0 ^= self.0 >> 12;
        self.0 ^= self.0 << 25;
        self.0 ^= self.0 >> 27;
        self.0.wrapping_mul(0x2545_f491_4f6c_dd1d)
    }

    fn below(&mut self, limit: usize) -> usize {
        (self.next() % limit as u64) as usize
    }
}

/// Changes bytes and remembers what was there.
struct Damage {
    undo: Vec<(usize, u8)>,
}

impl Damage {
    fn new() -> Self {
        Damage { undo: Vec::new() }
    }

    fn set(&mut self, bytes: &mut [u8], at: usize, value: u8) {
        self.undo.push((at, bytes[at]));
        bytes[at] = value;
    }

    /// One change at or near a place.
    fn hit(&mut self, dice: &mut Dice, bytes: &mut [u8], at: usize) {
        match dice.below(5) {
            0 => self.set(bytes, at, bytes[at] ^ (1 << dice.below(8))),
            1 => self.set(bytes, at, bytes[at].wrapping_add(1)),
            2 => self.set(bytes, at, bytes[at].wrapping_sub(1)),
            3 => self.set(bytes, at, dice.next() as u8),
            _ => {
                let value = [0, 1, 0x7f, 0x80, 0xff][dice.below(5)];
                let end = (at + 1 + dice.below(8)).min(bytes.len());
                (at..end).for_each(|at| self.set(bytes, at, value));
            }
        }
    }

    /// Writes an entry into a table that names some page of the window.
    fn name_a_page(&mut self, dice: &mut Dice, image: &mut Image) {
        let entries = [16, 512][dice.below(2)];
        let at = dice.below(image.content) * PAGE + 8 * dice.below(entries);
        let page = dice.below(first_pages(image));
        let entry = image.address(page) | 1;
        (0..8).for_each(|i| self.set(&mut image.window, at + i, entry.to_le_bytes()[i]));
    }

    fn repair(&mut self, bytes: &mut [u8]) {
        self.undo.drain(..).rev().for_each(|(at, value)| bytes[at] = value);
    }
}

fn judge(given: &Answer, pages: &[u64], found: Option<finding::Finding>, name: &str) {
    assert!(given.number <= 30, "{name}: {given:?}");
    assert_eq!(found.as_ref().map_or(0, |finding| finding.number), given.number, "{name}: the finding is {found:?}");
    assert!(pages[given.pages as usize..].iter().all(|page| *page == UNTOUCHED), "{name}: a place past the pages");
    assert!(!pages[..given.pages as usize].contains(&UNTOUCHED), "{name}: a page is not listed");
    if given.number != 0 {
        assert_eq!((given.pages, given.list, given.digest), (0, 255, [0; 32]), "{name}");
    }
}

fn digest_of(window: &[u8], base: u64, pages: &[u64]) -> [u8; 32] {
    let bytes: Vec<u8> = pages.iter().flat_map(|page| &window[(page - base) as usize..][..PAGE]).copied().collect();
    digest_in_parts(&bytes, 0)
}

/// How many pages of the window are hit on purpose: all, or so many that tables and pages of a large image are among them.
fn first_pages(image: &Image) -> usize {
    image.window.len().min(64 * PAGE) / PAGE
}

/// A place in the window: mostly in the used parts of the tables and the first bytes of the image, else anywhere.
fn place_in_window(dice: &mut Dice, image: &Image) -> usize {
    let table = dice.below(image.content);
    match dice.below(8) {
        0..=3 => table * PAGE + dice.below(64),
        4 => table * PAGE + dice.below(PAGE),
        5 => image.content * PAGE + dice.below(56),
        6 => {
            let behind = (image.content + image.listed.len()) * PAGE;
            behind + dice.below((image.window.len() - behind).clamp(1, 400))
        }
        _ => dice.below(image.window.len()),
    }
    .min(image.window.len() - 1)
}

/// A page among so many of the window's first, and one bit of 64.
fn page_and_bit(dice: &mut Dice, pages: usize) -> (u64, u64) {
    let bit = 1 << dice.below(64);
    (BASE + (dice.below(pages) * PAGE) as u64, bit)
}

/// Damages one of the reserved ranges, puts it on one of the first pages of the window, or leaves out it and all behind it.
fn damage_range(dice: &mut Dice, reserved: &mut Reserved, pages: usize) {
    let (page, bit) = page_and_bit(dice, pages);
    let mut ranges = reserved.as_slice().to_vec();
    let at = dice.below(ranges.len());
    match dice.below(4) {
        0 => ranges[at].base ^= bit,
        1 => ranges[at].size ^= bit,
        2 => ranges[at].base = page + dice.next() % 4096,
        // One is left, so that there is one to damage next.
        _ => ranges.truncate(at.max(1)),
    }
    *reserved = Reserved::new(&ranges).expect("no more than before");
}

/// Damages the platform, or puts heap, module or a reserved range on one of the first pages of the window.
fn damage_platform(dice: &mut Dice, platform: &mut Platform, pages: usize) {
    let (page, bit) = page_and_bit(dice, pages);
    let small = bit as u16;
    let kinds = if platform.reserved == Reserved::NONE { 11 } else { 22 };
    match dice.below(kinds) {
        0 => platform.window_base ^= bit,
        1 => platform.heap_base ^= bit,
        2 => platform.sinit_base ^= bit,
        3 => platform.dpr_base ^= bit,
        4 => platform.dpr_size ^= bit,
        5 => platform.acram_capacity ^= bit,
        6 => platform.vendor ^= small,
        7 => platform.device ^= small,
        8 => platform.revision ^= small,
        9 => platform.heap_base = page + dice.next() % 4096,
        10 => platform.sinit_base = page,
        _ => damage_range(dice, &mut platform.reserved, pages),
    }
}

/// Damages an image so many times, once to three times each, and repairs it. Counts the answers.
fn damage_image(name: &str, mut image: Image, times: usize, seed: u64, counts: &mut BTreeMap<u32, usize>) {
    let mut dice = Dice(seed);
    let mut pages = vec![UNTOUCHED; MOST_PAGES];
    let (platform, aimed_at) = (image.platform, first_pages(&image));
    let information = image.information();
    for turn in 0..times {
        let mut damages = [(); 5].map(|()| Damage::new());
        let kinds = if image.stm.is_empty() { 13 } else { 14 };
        for _ in 0..=dice.below(3) {
            match dice.below(kinds) {
                0..=3 => {
                    let at = place_in_window(&mut dice, &image);
                    damages[0].hit(&mut dice, &mut image.window, at);
                }
                4..=6 => {
                    let at = dice.below(124);
                    damages[1].hit(&mut dice, &mut image.heap, at);
                }
                7 | 8 => {
                    let at = if dice.below(2) == 0 { dice.below(ENTRY + 16) } else { information + dice.below(44) };
                    damages[2].hit(&mut dice, &mut image.sinit, at);
                }
                9 | 10 => {
                    let at = dice.below(70);
                    damages[3].hit(&mut dice, &mut image.record, at);
                }
                11 => damage_platform(&mut dice, &mut image.platform, aimed_at),
                12 => damages[0].name_a_page(&mut dice, &mut image),
                _ => {
                    let at = dice.below(image.stm.len());
                    damages[4].hit(&mut dice, &mut image.stm, at);
                }
            }
        }
        let name = format!("{name}, damage {turn}");
        let given = answer(&image.parts(), &image.platform, &mut pages);
        judge(&given, &pages, finding::first(&image.parts(), &image.platform, MOST_PAGES), &name);
        hold_place(&name, &given, Some((image.parts(), image.platform)));
        if given.number == 0 {
            let listed = &pages[..given.pages as usize];
            assert_eq!(given.digest, digest_of(&image.window, image.platform.window_base, listed), "{name}");
            pages[..given.pages as usize].fill(UNTOUCHED);
        }
        *counts.entry(given.number).or_default() += 1;
        damages[0].repair(&mut image.window);
        damages[1].repair(&mut image.heap);
        damages[2].repair(&mut image.sinit);
        damages[3].repair(&mut image.record);
        damages[4].repair(&mut image.stm);
        image.platform = platform;
    }
    let again = answer(&image.parts(), &image.platform, &mut pages);
    assert_eq!(again.number, 0, "{name}: the repaired image");
}

fn listed(shape: &Shape) -> Image {
    let image = image(shape);
    let digest = digest_in_parts(&image.bytes(), 0);
    let other = list(&[launch(0, &[[1; 32]]), element(3, &[9; 20])]);
    with_lists(&image, &[other, list(&[launch(2, &[[3; 32], digest])])])
}

/// The same with an STM image, in a list behind one for another STM image.
fn with_stm(shape: &Shape) -> Image {
    let image = Image { stm: (0..300).map(|i| (i * 3) as u8).collect(), ..image(shape) };
    let digest = digest_in_parts(&image.bytes(), 0);
    let stm_digest = digest_in_parts(&image.stm, 0);
    let other = list(&[launch(0, &[digest]), stm(&[[1; 32]])]);
    let by_others = element(0x14, &stm_body(0x0004, 1, &[2; 20]));
    with_lists(&image, &[other, list(&[by_others, stm(&[[3; 32], stm_digest]), launch(2, &[digest])])])
}

/// Three pages behind three tables, with this DPR and this low PMR.
fn in_regions(dpr: Region, low: Region) -> Image {
    let mut image = image(&Shape { pages: 3, ..Shape::default() });
    assert_eq!(image.listed[0], BASE + 0x3000);
    image.set_regions(dpr, low, (0, 0));
    image
}

/// Sixteen reserved ranges: the free pages between tables and pages and behind them, the byte before each, and some of size 0 inside.
fn with_ranges() -> Image {
    let mut image = spread(BASE);
    let at = |page: usize| image.address(page);
    let between = [0, 2, 4, 6, 8].map(|page| (at(page), PAGE as u64));
    let beside = [POINTERS, DIRECTORY, TABLE, ONE, TWO].map(|page| (at(page) - 1, 1));
    let empty = [POINTERS, DIRECTORY, TABLE, ONE, TWO].map(|page| (at(page) + 0x800, 0));
    let ranges = [&between[..], &beside, &empty, &[(at(TWO + 1), 0x2_0000)]].concat();
    assert_eq!(ranges.len(), MOST_RESERVED);
    image.reserve(&ranges);
    image
}

/// Damaged ranges, now and then with another page in a table. The answers that are not those without ranges are counted.
#[test]
fn reserved_ranges() {
    let mut image = with_ranges();
    let (platform, aimed_at) = (image.platform, first_pages(&image));
    let mut dice = Dice(18);
    let mut pages = vec![UNTOUCHED; MOST_PAGES];
    let mut counts: BTreeMap<u32, usize> = BTreeMap::new();
    for turn in 0..6000 {
        let mut damage = Damage::new();
        if dice.below(4) == 0 {
            damage.name_a_page(&mut dice, &mut image);
        }
        for _ in 0..=dice.below(3) {
            damage_range(&mut dice, &mut image.platform.reserved, aimed_at);
        }
        let given = answer(&image.parts(), &image.platform, &mut pages);
        judge(&given, &pages, finding::first(&image.parts(), &image.platform, MOST_PAGES), &format!("damage {turn}"));
        pages[..given.pages as usize].fill(UNTOUCHED);
        let without = Platform { reserved: Reserved::NONE, ..image.platform };
        if answer(&image.parts(), &without, &mut pages).number != given.number {
            *counts.entry(given.number).or_default() += 1;
        }
        pages.fill(UNTOUCHED);
        damage.repair(&mut image.window);
        image.platform = platform;
    }
    assert_eq!(counts.keys().copied().collect::<Vec<u32>>(), [1, 17], "{counts:?}");
    assert!(counts.values().all(|count| *count > 500), "{counts:?}");
}

#[test]
fn images() {
    let small = image(&Shape::default()).window.len();
    let plain = Shape::default();
    let of = |shape: Shape| image(&shape);
    let mut counts = BTreeMap::new();
    damage_image("two pages", of(plain.clone()), 6000, 1, &mut counts);
    damage_image("two pages, LIST", listed(&plain), 6000, 2, &mut counts);
    damage_image("one page", of(Shape { pages: 1, ..plain.clone() }), 1000, 3, &mut counts);
    damage_image("header at 4044", of(Shape { pages: 3, header: 4044, ..plain.clone() }), 1000, 4, &mut counts);
    damage_image("the most tables", of(Shape { empty_tables: MOST_TABLES - 3, ..plain.clone() }), 2000, 5, &mut counts);
    damage_image("two directories", of(Shape { pages: 40, first: 512 * 512 - 20, ..plain.clone() }), 2000, 6, &mut counts);
    damage_image("the longest heap", of(Shape { heap_spare: MOST_HEAP - 124, ..plain.clone() }), 1000, 7, &mut counts);
    damage_image("the longest window", of(Shape { spare: MOST_WINDOW - small, ..plain.clone() }), 1000, 8, &mut counts);
    damage_image("4096 pages", of(Shape { pages: 4096, ..plain.clone() }), 60, 9, &mut counts);
    damage_image("4096 pages, LIST", listed(&Shape { pages: 4096, first: 100, ..plain.clone() }), 40, 10, &mut counts);
    damage_image("the most pages", of(Shape { pages: MOST_PAGES, first: 300, ..plain.clone() }), 20, 15, &mut counts);
    damage_image("two pages, LIST with STM elements", with_stm(&plain), 6000, 12, &mut counts);
    let (in_both, apart) = (((BASE + 0x3000, 0x2000), (BASE, 0x6000)), ((BASE, 0x3000), (BASE + 0x3000, 0x3000)));
    damage_image("all in the low PMR, two pages in DPR", in_regions(in_both.0, in_both.1), 3000, 14, &mut counts);
    damage_image("tables in DPR, pages in the low PMR", in_regions(apart.0, apart.1), 3000, 19, &mut counts);
    let newer = Image { sinit: module_with(HEADER_3_0, 960), ..of(plain) };
    damage_image("two pages, module header 3.0", newer, 6000, 16, &mut counts);
    damage_image("two pages, reserved ranges", with_ranges(), 3000, 17, &mut counts);
    assert_eq!(counts.values().sum::<usize>(), 41_120);
    let met: Vec<u32> = counts.keys().copied().collect();
    let expected: Vec<u32> = (0..=29).filter(|number| *number != 13).collect();
    assert_eq!(met, expected, "every number but 13 is met: {counts:?}");
}

/// Damaged policy files under a record whose PolicyHash is right for them, so that it is decided over damaged elements which list permits.
#[test]
fn policy_files_with_their_hash() {
    let image = image(&Shape::default());
    let good = with_stm(&Shape::default());
    let mut file = good.window[image.window.len()..].to_vec();
    let mut dice = Dice(13);
    let mut pages = vec![UNTOUCHED; MOST_PAGES];
    let mut counts: BTreeMap<u32, usize> = BTreeMap::new();
    for turn in 0..6000 {
        let mut damage = Damage::new();
        for _ in 0..=dice.below(2) {
            let at = 36 + dice.below(file.len() - 36);
            damage.hit(&mut dice, &mut file, at);
        }
        let lists: Vec<Vec<u8>> = policy::lists(&file).map(|(list, _)| file[list.bytes].to_vec()).collect();
        let damaged = Image { stm: good.stm.clone(), ..with_file(&image, &file, &policy_hash(&lists)) };
        let given = answer(&damaged.parts(), &damaged.platform, &mut pages);
        let found = finding::first(&damaged.parts(), &damaged.platform, MOST_PAGES);
        judge(&given, &pages, found, &format!("damage {turn}"));
        hold_place(&format!("damage {turn}"), &given, Some((damaged.parts(), damaged.platform)));
        pages[..given.pages as usize].fill(UNTOUCHED);
        *counts.entry(given.number).or_default() += 1;
        damage.repair(&mut file);
    }
    assert_eq!(counts.keys().copied().collect::<Vec<u32>>(), [0, 27, 29], "{counts:?}");
    assert!(counts.values().all(|count| *count > 100), "{counts:?}");
}

/// A place in a capture: mostly in its head or where the parts have their fields.
fn place_in_capture(dice: &mut Dice, capture: &[u8]) -> usize {
    let length = capture.len();
    let head = Layout::read(capture).unwrap_or(Layout::PLAIN).head();
    match dice.below(4) {
        0 => dice.below(head),
        1 => length - 1 - dice.below(1100.min(length)),
        2 => head + PAGE * dice.below(8) + dice.below(64),
        _ => dice.below(length),
    }
    .min(length - 1)
}

#[test]
fn captures() {
    let mut dice = Dice(11);
    let mut pages = vec![UNTOUCHED; capture::PLACES];
    let mut turns = 0;
    for (name, mut bytes) in common::captures().into_iter().filter(|(_, bytes)| !bytes.is_empty()) {
        for turn in 0..25 {
            let mut damage = Damage::new();
            for _ in 0..=dice.below(2) {
                let at = place_in_capture(&mut dice, &bytes);
                damage.hit(&mut dice, &mut bytes, at);
            }
            let name = format!("{name}, damage {turn}");
            let given = answer_capture(&bytes, &mut pages);
            judge(&given, &pages, finding::first_in_capture(&bytes, capture::PLACES), &name);
            hold_place(&name, &given, capture::split(&bytes).ok());
            pages[..given.pages as usize].fill(UNTOUCHED);
            damage.repair(&mut bytes);
            turns += 1;
        }
    }
    assert!(turns >= 5_000, "{turns} damaged captures");
}

#[test]
fn captures_cut_and_extended() {
    let mut pages = vec![UNTOUCHED; capture::PLACES];
    for (name, mut bytes) in common::captures() {
        bytes.push(0);
        let given = answer_capture(&bytes, &mut pages);
        judge(&given, &pages, finding::first_in_capture(&bytes, capture::PLACES), &format!("{name} and a byte"));
        for cut in [1, 2, 70, 75, 1000, 5000] {
            bytes.truncate(bytes.len().saturating_sub(cut));
            let given = answer_capture(&bytes, &mut pages);
            judge(&given, &pages, finding::first_in_capture(&bytes, capture::PLACES), &format!("{name} cut by {cut}"));
            pages[..given.pages as usize].fill(UNTOUCHED);
        }
    }
}
