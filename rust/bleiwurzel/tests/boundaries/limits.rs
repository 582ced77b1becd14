//! Rule 1: the window's base, and base plus size of window, heap and DPR. Windows and heaps of the greatest length stand in
//! tests/images.rs, STM images in `stm`, reserved ranges in `reserved`.

use crate::common::*;

const TOP: u64 = 1 << 52;

fn low_pmr(i: &mut Image) {
    put(&mut i.heap, LOW, BASE, 8);
    put(&mut i.heap, LOW + 8, (ALL * PAGE) as u64, 8);
}

#[test]
fn window_base() {
    hold(
        &spread(BASE),
        &[
            ("window base a page on", |i| *i = spread(BASE + 0x1000), 0),
            ("window base 1 byte on", |i| i.platform.window_base += 1, 1),
            ("window base half a page on", |i| i.platform.window_base += 2048, 1),
            ("window base 1 byte before a page", |i| i.platform.window_base -= 1, 1),
        ],
    );
}

#[test]
fn window_end() {
    hold(
        &spread(TOP - (ALL * PAGE) as u64),
        &[
            ("window to 2^52", |_| (), 0),
            ("window to 2^52 and 1 byte more", |i| i.window.push(0), 1),
            ("an empty window at 2^52", |i| (i.window, i.platform.window_base) = (Vec::new(), TOP), 15),
            ("an empty window a page above 2^52", |i| (i.window, i.platform.window_base) = (Vec::new(), TOP + 4096), 1),
            ("a window whose end wraps to 0", |i| i.platform.window_base = 0u64.wrapping_sub((ALL * PAGE) as u64), 1),
        ],
    );
}

#[test]
fn heap_end() {
    hold(
        &spread(BASE),
        &[
            ("heap to 2^52", |i| i.platform.heap_base = TOP - 124, 0),
            ("heap to 2^52 and 1 byte more", |i| i.platform.heap_base = TOP - 123, 1),
            ("a heap at 2^52", |i| i.platform.heap_base = TOP, 1),
            ("a heap whose end wraps to 0", |i| i.platform.heap_base = 0u64.wrapping_sub(124), 1),
        ],
    );
}

#[test]
fn dpr_end() {
    hold(
        &spread(BASE),
        &[
            ("DPR to 2^52", |i| i.platform.dpr_size = TOP - BASE, 0),
            ("DPR to 2^52 and 1 byte more", |i| i.platform.dpr_size = TOP - BASE + 1, 1),
            ("DPR whose end wraps to 0", |i| i.platform.dpr_size = 0u64.wrapping_sub(BASE), 1),
        ],
    );
    let mut good = spread(BASE);
    low_pmr(&mut good);
    hold(
        &good,
        &[
            ("an empty DPR at 2^52", |i| (i.platform.dpr_base, i.platform.dpr_size) = (TOP, 0), 0),
            ("an empty DPR 1 byte above 2^52", |i| (i.platform.dpr_base, i.platform.dpr_size) = (TOP + 1, 0), 1),
            ("DPR of the last byte below 2^52", |i| (i.platform.dpr_base, i.platform.dpr_size) = (TOP - 1, 1), 0),
            ("DPR of the first byte above", |i| (i.platform.dpr_base, i.platform.dpr_size) = (TOP, 1), 1),
        ],
    );
}
