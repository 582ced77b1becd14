//! The memory map of a host: its /proc/iomem, or the lines of its kernel's log with what the firmware said at the start (e820). All of the window is
//! reserved but what the map lists as usable memory and as nothing else.

mod lines;

use super::args::Args;
use super::{files, misuse, Misuse};
use bleiwurzel::{MemoryRange, Platform};
use lines::Kind;
use std::ops::Range;

/// The flag of its file.
pub const FLAG: &str = "--reserved-from";

/// More than a kernel's log has.
const MOST_TEXT: u64 = 16 << 20;

/// Addresses. An end may be above 2^64, and does not wrap.
type Span = Range<u128>;

/// Adds to the platform what the file of the flag reserves in the window. Every table and page lies in the window, by rule 15, so that ranges
/// outside do not matter.
pub fn reserve(args: &Args, window: &[u8], platform: &mut Platform, help: &'static str) -> Result<(), Misuse> {
    let path = match args.value(FLAG) {
        Some(path) => path,
        None => return Ok(()),
    };
    let file = files::read(path, MOST_TEXT, "the memory map", help)?;
    let name = files::shown(path);
    if file.length.more {
        return misuse(help, format!("{name} is no memory map: it has over {MOST_TEXT} bytes"));
    }
    let map = lines::read(&String::from_utf8_lossy(&file.bytes)).or_else(|why| misuse(help, format!("{name}{why}")))?;
    let base = u128::from(platform.window_base);
    let inside = reserved(&map, base..base + window.len() as u128);
    let count = platform.reserved.as_slice().len() + inside.len();
    inside.into_iter().try_for_each(|span| platform.reserved.push(range(span))).or_else(|why| {
        let remedy = "dump a smaller window, which holds tables, image and policy file and little else";
        misuse(help, format!("{why}, and with those of {name} in the window there are {count}; {remedy}"))
    })
}

/// What of the window no line lists as usable, and all of each line that touches the window and is not usable, also where another lists it as usable.
fn reserved(map: &[(Span, Kind)], window: Span) -> Vec<Span> {
    let of = |kind| map.iter().filter(move |(_, listed)| *listed == kind).map(|(span, _)| span.clone());
    let mut all: Vec<Span> = of(Kind::NotUsable).filter(|span| span.start.max(window.start) < span.end.min(window.end)).collect();
    let mut from = window.start;
    for usable in joined(of(Kind::Usable).collect()).into_iter().chain(std::iter::once(window.end..window.end)) {
        all.push(from..usable.start.min(window.end));
        from = from.max(usable.end);
    }
    joined(all)
}

/// The same addresses in rising order; what overlaps or adjoins is one span.
fn joined(mut spans: Vec<Span>) -> Vec<Span> {
    spans.retain(|span| !span.is_empty());
    spans.sort_unstable_by_key(|span| span.start);
    let mut joined: Vec<Span> = Vec::new();
    for span in spans {
        match joined.last_mut() {
            Some(last) if span.start <= last.end => last.end = last.end.max(span.end),
            _ => joined.push(span),
        }
    }
    joined
}

/// A span as the platform has it. What 64 bits do not hold is cut; it ends above 2^52 all the same, which rule 1 refuses.
fn range(span: Span) -> MemoryRange {
    let cut = |number| u64::try_from(number).unwrap_or(u64::MAX);
    MemoryRange { base: cut(span.start), size: cut(span.end - span.start) }
}

#[cfg(test)]
mod tests {
    use super::*;

    /// Holds what a map reserves in the window from 0x100 to 0x1ff: first bytes and last ones.
    #[track_caller]
    fn held(text: &str, expected: &[(u128, u128)]) {
        let found = reserved(&lines::read(text).expect("a memory map"), 0x100..0x200);
        assert_eq!(found.iter().map(|span| (span.start, span.end - 1)).collect::<Vec<_>>(), expected, "{text}");
    }

    #[test]
    fn what_is_not_listed_as_usable() {
        held("0-ff : System RAM\n200-2ff : System RAM\n", &[(0x100, 0x1ff)]);
        held("180-2ff : System RAM\n0-17f : System RAM\n", &[]);
        held("101-1fe : System RAM\n", &[(0x100, 0x100), (0x1ff, 0x1ff)]);
        held("110-13f : System RAM\n118-11f : System RAM\n141-1ff : System RAM\n", &[(0x100, 0x10f), (0x140, 0x140)]);
        held("0-17f : System RAM\n180-1ff : Kernel code\n", &[(0x180, 0x1ff)]);
    }

    #[test]
    fn what_is_listed_as_something_else_too() {
        for (more, expected) in [
            ("110-11f : Kernel code\n120-12f : Crash kernel", &[][..]),
            ("130-13f : b\n110-11f : a\n120-12f : c\n128-137 : d", &[(0x110, 0x13f)]),
            ("110-11f : a\n121-12f : b", &[(0x110, 0x11f), (0x121, 0x12f)]),
            ("0-ff : a\n200-2ff : b", &[]),
            ("0-100 : a\n1ff-2ff : b", &[(0, 0x100), (0x1ff, 0x2ff)]),
            ("0-ffffffffffffffff : a", &[(0, u64::MAX as u128)]),
        ] {
            held(&format!("0-ffffffffffffffff : System RAM\n{more}\n"), expected);
        }
    }

    #[test]
    fn windows_without_bytes_and_at_the_end() {
        let map = lines::read("0-ff : a\nfffffffffffffff0-ffffffffffffffff : System RAM\n").expect("a memory map");
        let top = 1 << 64;
        assert_eq!(reserved(&map, 0x80..0x80), []);
        assert_eq!(reserved(&map, top - 32..top + 16), [top - 32..top - 16, top..top + 16]);
        for (span, base, size) in [(5..8, 5, 3), (top - 1..top, u64::MAX, 1), (0..top, 0, u64::MAX), (top..top + 2, u64::MAX, 2)]
        {
            assert_eq!(range(span), MemoryRange { base, size });
        }
    }
}
