//! Damages of the platform's numbers and of its reserved ranges. In a capture they stand in its head, where the other damages hit them, too.

use crate::damage::edge;
use crate::dice::Dice;
use crate::subject::{Form, Subject, CAPTURE, WINDOW};
use inputs::{MemoryRange, Platform, Reserved, MOST_RESERVED, PAGE_SIZE};

/// Where the platform's numbers begin in a capture's head, and how many of 64 bits there are before those of the chipset.
const NUMBERS: usize = 5;
const WIDE_NUMBERS: usize = 6;

pub fn damage(dice: &mut Dice, subject: &mut Subject) {
    if subject.form == Form::Capture {
        return in_capture(dice, subject);
    }
    let mut platform = subject.platform;
    match dice.below(4) {
        0 => ranges(dice, subject, &mut platform),
        1 => near_the_window(dice, subject, &mut platform),
        _ => numbers(dice, &mut platform),
    }
    subject.put_platform(platform);
}

fn in_capture(dice: &mut Dice, subject: &mut Subject) {
    let at = NUMBERS + 8 * dice.below(WIDE_NUMBERS);
    if let Some(old) = twin::field::u64_in(&subject.bytes[CAPTURE], at) {
        let copied = twin::field::u64_at(&subject.bytes[CAPTURE], NUMBERS);
        let new = if dice.once_in(4) { old ^ 1 << dice.below(64) } else { edge(dice, old, copied) };
        subject.put(CAPTURE, at, &new.to_le_bytes());
    }
}

fn wide(platform: &mut Platform) -> [&mut u64; WIDE_NUMBERS] {
    let Platform { window_base, heap_base, sinit_base, dpr_base, dpr_size, acram_capacity, .. } = platform;
    [window_base, heap_base, sinit_base, dpr_base, dpr_size, acram_capacity]
}

/// One number, by a bit, an edge or the value of another.
fn numbers(dice: &mut Dice, platform: &mut Platform) {
    let copied = *wide(platform)[dice.below(WIDE_NUMBERS)];
    if dice.once_in(4) {
        let bit = 1 << dice.below(16);
        return match dice.below(3) {
            0 => platform.vendor ^= bit,
            1 => platform.device ^= bit,
            _ => platform.revision ^= bit,
        };
    }
    let index = dice.below(WIDE_NUMBERS);
    let old = *wide(platform)[index];
    *wide(platform)[index] = if dice.once_in(4) { old ^ 1 << dice.below(64) } else { edge(dice, old, copied) };
}

/// An address on one of the window's first pages or beside it.
fn address(dice: &mut Dice, subject: &Subject) -> u64 {
    let pages = (subject.bytes[WINDOW].len() as u64 / PAGE_SIZE).clamp(1, 64);
    let page = subject.platform.window_base.wrapping_add(dice.below(pages as usize) as u64 * PAGE_SIZE);
    page.wrapping_add(dice.one_of(&[0, 0, 1, 0x800, 0xfff, u64::MAX]))
}

/// Heap, module or DPR on one of the window's first pages.
fn near_the_window(dice: &mut Dice, subject: &Subject, platform: &mut Platform) {
    let address = address(dice, subject);
    match dice.below(4) {
        0 => platform.heap_base = address,
        1 => platform.sinit_base = address & !(PAGE_SIZE - 1),
        2 => platform.dpr_base = address,
        _ => platform.dpr_size = address.wrapping_sub(platform.dpr_base),
    }
}

/// A reserved range more, one less, or one with another number.
fn ranges(dice: &mut Dice, subject: &Subject, platform: &mut Platform) {
    let mut ranges = platform.reserved.as_slice().to_vec();
    let drawn = MemoryRange { base: address(dice, subject), size: dice.one_of(&[0, 1, 2, 0x1000, 0x2000, u64::MAX]) };
    let index = dice.below(ranges.len().max(1));
    let kind = if ranges.is_empty() { 3 } else { dice.below(4) };
    match kind {
        0 => ranges[index].base = edge(dice, ranges[index].base, drawn.base),
        1 => ranges[index].size = edge(dice, ranges[index].size, drawn.size),
        2 => ranges.truncate(index),
        _ if ranges.len() < MOST_RESERVED => ranges.push(drawn),
        _ => ranges[index] = drawn,
    }
    platform.reserved = Reserved::new(&ranges).expect("no more than there is place for");
}
