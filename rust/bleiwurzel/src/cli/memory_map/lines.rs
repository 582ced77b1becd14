//! The lines of a memory map. A line of /proc/iomem counts at any indentation; of the kernel's log those with the mark of e820 count. Both forms name
//! the last byte of a range, not its end.

use super::Span;
use crate::cli::names;

/// What marks a line of the map in the log.
const E820: &str = "BIOS-e820:";

/// What a line says of its range.
#[derive(Clone, Copy, Debug, PartialEq, Eq)]
pub enum Kind {
    Usable,
    NotUsable,
    /// Nothing: the kernel's own place in usable memory, which another line lists.
    Part,
}

/// All lines of a map, or why a text is none. Other lines of a log are passed over, but none that is cut or changed: what it reserves would be lost.
pub fn read(text: &str) -> Result<Vec<(Span, Kind)>, String> {
    let broken = |index: usize, text: &str| {
        let shown = names::shown_front(text.trim());
        format!(", line {}: '{shown}' is no whole line of a memory map; copy the map anew", index + 1)
    };
    let lines = text.lines().enumerate().filter(|(_, text)| is_of_map(text));
    let map: Vec<(Span, Kind)> =
        lines.map(|(index, text)| line(text).ok_or_else(|| broken(index, text))).collect::<Result<_, _>>()?;
    if map.is_empty() {
        return Err(" has no line of a memory map; give /proc/iomem, or the kernel's log with its lines BIOS-e820 (dmesg)".into());
    }
    if map.iter().all(|(span, _)| span.end == 1) {
        return Err(" has nothing but zeros for addresses: Linux shows them to root alone, so read it as root".into());
    }
    Ok(map)
}

/// Whether a line is meant for one of a map: it has the log's mark, or its first word is digits, a dash and digits, the last of them cut off or not.
fn is_of_map(line: &str) -> bool {
    let hex = |digits: &str| digits.bytes().all(|digit| digit.is_ascii_hexdigit());
    let word = line.trim_start().split(|c: char| c == ':' || c.is_whitespace()).next().unwrap_or_default();
    line.contains(E820) || word.split_once('-').map_or(false, |(first, last)| !first.is_empty() && hex(first) && hex(last))
}

/// A line that is whole.
fn line(line: &str) -> Option<(Span, Kind)> {
    let (range, name, in_log) = match line.split_once(E820) {
        Some((_, rest)) => {
            let (range, name) = rest.trim_start().strip_prefix("[mem ")?.split_once(']')?;
            (range, name.trim(), true)
        }
        None => line.split_once(':').map(|(range, name)| (range.trim(), name.trim(), false))?,
    };
    let kind = match (in_log, name) {
        (_, "") => return None,
        (true, "usable") | (false, "System RAM") => Kind::Usable,
        (false, "Crash kernel") => Kind::Part,
        (false, name) if name.starts_with("Kernel ") => Kind::Part,
        _ => Kind::NotUsable,
    };
    let (first, last) = range.split_once('-')?;
    let span = address(first)?..address(last)? + 1;
    Some((span, kind)).filter(|(span, _)| !span.is_empty())
}

fn address(text: &str) -> Option<u128> {
    let digits = text.strip_prefix("0x").unwrap_or(text);
    // A sign is no digit, though Rust reads it.
    u64::from_str_radix(digits, 16).ok().filter(|_| !digits.starts_with('+')).map(u128::from)
}

#[cfg(test)]
mod tests {
    use super::*;

    #[test]
    fn lines_of_both_forms() {
        for (text, first, last, kind) in [
            ("00001000-0009fbff : System RAM", 0x1000, 0x9fbff, Kind::Usable),
            ("  0009fc00-0009ffff : Reserved", 0x9fc00, 0x9ffff, Kind::NotUsable),
            ("\t1-1:PCI Bus 0000:00\r", 1, 1, Kind::NotUsable),
            ("1-2: System RAM (kmem)", 1, 2, Kind::NotUsable),
            ("1-2 :usable", 1, 2, Kind::NotUsable),
            ("1-2 : Kernel code", 1, 2, Kind::Part),
            ("1-2 : Crash kernel", 1, 2, Kind::Part),
            ("1-2 : Kernel", 1, 2, Kind::NotUsable),
            ("1-2 : Crash kernel 2", 1, 2, Kind::NotUsable),
            ("[    0.000000] BIOS-e820: [mem 0x0000000000001000-0x000000000009fbff] usable", 0x1000, 0x9fbff, Kind::Usable),
            ("BIOS-e820: [mem 0x0-0xffffffffffffffff] ACPI data\r", 0, u64::MAX, Kind::NotUsable),
            ("BIOS-e820: [mem 0x1-0x2] System RAM", 1, 2, Kind::NotUsable),
            ("BIOS-e820: [mem 0x1-0x2] Kernel code", 1, 2, Kind::NotUsable),
        ] {
            let span = first..u128::from(last) + 1;
            assert_eq!(read(&format!("a log\n{text}\n")), Ok(vec![(span, kind)]), "{text}");
        }
    }

    #[test]
    fn texts_that_are_no_map() {
        let why = |text: &str| read(text).expect_err("no map");
        for text in ["", "reserved = 1+2", "[0.1] BIOS-e820 [mem 0x1-0x2] usable", "1: 1-2 : a", "1-2-3 : a", "-2 : a"] {
            assert!(why(text).contains("no line of"), "{text}");
        }
        for line in ["2-1 : a", "1-2", "1-", "1-2 :", "1-2 a : b", "1-10000000000000000 : a"] {
            assert!(why(&format!("0-1 : a\n\n {line}\n")).starts_with(&format!(", line 3: '{line}' is")), "{line}");
        }
        for rest in ["", " usable", " [mem 0x1-0x2", " [mem 0x1-0x2] ", " [mem 0x1-+2] a", " [mem 0x2-0x1] a", " [gap 0x1-0x2] a"]
        {
            assert!(why(&format!("BIOS-e820:{rest}")).starts_with(", line 1: "), "{rest}");
        }
        let hidden = "00000000-00000000 : Reserved\n00000000-00000000 : System RAM\n";
        assert!(why(hidden).contains("read it as root"));
        assert!(read(&(hidden.to_string() + "00000000-00000001 : System RAM\n")).is_ok());
    }
}
