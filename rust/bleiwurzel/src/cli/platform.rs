//! The platform's nine numbers and its reserved ranges, from flags, from a text file or from both.

use super::args::{self, Args};
use super::{files, misuse, names, Misuse};
use bleiwurzel::{MemoryRange, Platform, Reserved};
use std::ffi::OsStr;

/// The keys in the order of a capture, and the bits of each number.
pub const KEYS: [(&str, &str, u32); 9] = [
    ("window_base", "--window-base", 64),
    ("heap_base", "--heap-base", 64),
    ("sinit_base", "--sinit-base", 64),
    ("dpr_base", "--dpr-base", 64),
    ("dpr_size", "--dpr-size", 64),
    ("acram_capacity", "--acram-capacity", 64),
    ("vendor", "--vendor", 16),
    ("device", "--device", 16),
    ("revision", "--revision", 16),
];

/// The key of a reserved range, which alone may be given more than once.
pub const RESERVED: &str = "reserved";

const MOST_TEXT: u64 = 65_536;

/// What a file and flags give.
#[derive(Default)]
struct Found {
    /// In the order of `KEYS`.
    numbers: [Option<u64>; 9],
    reserved: Vec<MemoryRange>,
}

/// The numbers in the order of `KEYS`.
pub fn values(platform: &Platform) -> [u64; 9] {
    [
        platform.window_base,
        platform.heap_base,
        platform.sinit_base,
        platform.dpr_base,
        platform.dpr_size,
        platform.acram_capacity,
        u64::from(platform.vendor),
        u64::from(platform.device),
        u64::from(platform.revision),
    ]
}

fn platform(
    [window_base, heap_base, sinit_base, dpr_base, dpr_size, acram_capacity, vendor, device, revision]: [u64; 9],
) -> Platform {
    Platform {
        window_base,
        heap_base,
        sinit_base,
        dpr_base,
        dpr_size,
        acram_capacity,
        vendor: vendor as u16,
        device: device as u16,
        revision: revision as u16,
        reserved: Reserved::NONE,
    }
}

/// The platform as a text file, one `key = value` a line.
pub fn text(platform: &Platform) -> String {
    let numbers = KEYS.iter().zip(values(platform)).map(|((key, _, _), value)| format!("{key} = {value:#x}\n"));
    let range = |range: &MemoryRange| format!("{RESERVED} = {:#x}+{:#x}\n", range.base, range.size);
    numbers.chain(platform.reserved.as_slice().iter().map(range)).collect()
}

/// A decimal number, or a hexadecimal one with 0x, of so many bits.
pub fn number(text: &str, bits: u32) -> Result<u64, String> {
    let shown = names::shown_front(text);
    let wrong = || format!("'{shown}' is no number; write decimal digits, or 0x and hexadecimal digits");
    let (digits, radix) = match text.strip_prefix("0x").or_else(|| text.strip_prefix("0X")) {
        Some(digits) => (digits, 16),
        None => (text, 10),
    };
    if digits.is_empty() || !digits.chars().all(|digit| digit.is_digit(radix)) {
        return Err(wrong());
    }
    let value = u64::from_str_radix(digits, radix).ok().filter(|value| bits == 64 || value >> bits == 0);
    value.ok_or_else(|| format!("'{shown}' does not fit into {bits} bits"))
}

/// A range as base and size.
fn range(text: &str) -> Result<MemoryRange, String> {
    match text.split_once('+') {
        Some((base, size)) => Ok(MemoryRange { base: number(base.trim(), 64)?, size: number(size.trim(), 64)? }),
        None => Err(format!("'{}' is no range; write its base, + and its size in bytes", names::shown_front(text))),
    }
}

/// Reads the text of a platform file.
fn read_text(text: &str, found: &mut Found) -> Result<(), String> {
    for (index, line) in text.lines().enumerate() {
        let line = line.split('#').next().unwrap_or("").trim();
        if line.is_empty() {
            continue;
        }
        let at = |message: String| format!("line {}: {message}", index + 1);
        let (key, value) = match line.split_once('=') {
            Some((key, value)) => (key, value),
            None => {
                return Err(at(format!("'{}' is not of the form key = value", names::shown_text(line))));
            }
        };
        let key = key.trim().replace('-', "_");
        if key == RESERVED {
            found.reserved.push(range(value.trim()).map_err(at)?);
            continue;
        }
        let place = match KEYS.iter().position(|(known, _, _)| *known == key) {
            Some(place) => place,
            None => {
                let known: Vec<&str> = KEYS.iter().map(|(known, _, _)| *known).chain([RESERVED]).collect();
                let key = names::shown_text(&key);
                return Err(at(format!("there is no key '{key}'; the keys are {}", known.join(", "))));
            }
        };
        if found.numbers[place].is_some() {
            return Err(at(format!("'{key}' is given twice; give it once")));
        }
        found.numbers[place] = Some(number(value.trim(), KEYS[place].2).map_err(at)?);
    }
    Ok(())
}

/// Reads a platform file.
fn read_file(path: &OsStr, found: &mut Found, help: &'static str) -> Result<(), Misuse> {
    let file = files::read(path, MOST_TEXT, "the platform", help)?;
    let name = files::shown(path);
    if file.length.more {
        return misuse(help, format!("{name} is no platform file: it has over {MOST_TEXT} bytes"));
    }
    let text = match String::from_utf8(file.bytes) {
        Ok(text) => text,
        Err(_) => {
            return misuse(help, format!("{name} is no platform file: it is no text"));
        }
    };
    read_text(&text, found).or_else(|message| misuse(help, format!("{name}, {message}")))
}

/// Reads the flags. A number of theirs counts more than that of the file, and their ranges are added to those of the file.
fn read_flags(args: &Args, found: &mut Found, help: &'static str) -> Result<(), Misuse> {
    for (place, (_, flag, bits)) in found.numbers.iter_mut().zip(KEYS) {
        let value = match args.value(flag) {
            Some(value) => value,
            None => continue,
        };
        *place = Some(number(&value.to_string_lossy(), bits).or_else(|message| misuse(help, format!("{flag}: {message}")))?);
    }
    for value in args.values(args::RESERVED) {
        let range = range(&value.to_string_lossy()).or_else(|message| misuse(help, format!("{}: {message}", args::RESERVED)))?;
        found.reserved.push(range);
    }
    Ok(())
}

/// The platform that the flags give, and the file that one of them names.
pub fn read(args: &Args, help: &'static str) -> Result<Platform, Misuse> {
    let mut found = Found::default();
    if let Some(path) = args.value("--platform") {
        read_file(path, &mut found, help)?;
    }
    read_flags(args, &mut found, help)?;
    let places = found.numbers.iter().zip(KEYS);
    let missing: Vec<&str> = places.filter(|(place, _)| place.is_none()).map(|(_, (_, flag, _))| flag).collect();
    if !missing.is_empty() {
        let missing = missing.join(", ");
        return misuse(
            help,
            format!("numbers of the platform are missing: {missing}. Give these flags, or a file with --platform"),
        );
    }
    let reserved = Reserved::new(&found.reserved).or_else(|why| {
        let remedy = "join those that overlap or adjoin, and leave out those outside the window";
        misuse(help, format!("{why}, and {} are given; {remedy}", found.reserved.len()))
    })?;
    Ok(Platform { reserved, ..platform(found.numbers.map(Option::unwrap_or_default)) })
}

#[cfg(test)]
mod tests {
    use super::*;

    #[test]
    fn numbers() {
        assert_eq!(number("4096", 64), Ok(4096));
        assert_eq!(number("0x1000", 64), Ok(4096));
        assert_eq!(number("0XfF", 16), Ok(255));
        assert_eq!(number("65535", 16), Ok(65535));
        assert_eq!(number("0xffffffffffffffff", 64), Ok(u64::MAX));
        for wrong in ["", "0x", "-1", "+1", "1k", "0x1 0", "1000h", "18446744073709551616"] {
            assert!(number(wrong, 64).is_err(), "{wrong}");
        }
        assert!(number("65536", 16).is_err());
    }

    #[test]
    fn ranges() {
        for (text, base, size) in [("0x1000+4096", 4096, 4096), ("0 + 0", 0, 0), ("1+0xffffffffffffffff", 1, u64::MAX)] {
            assert_eq!(range(text), Ok(MemoryRange { base, size }), "{text}");
        }
        for wrong in ["", "+", "1+", "+1", "1", "1-2", "1+2+3", "1+18446744073709551616", "0x+1"] {
            assert!(range(wrong).is_err(), "{wrong}");
        }
    }

    #[test]
    fn a_platform_file_gives_back_what_was_written() {
        let mut platform = platform([1 << 20, 2, u64::MAX, 4, 5, 6, 0x8086, 0xb002, 0xffff]);
        for ranges in [&[][..], &[MemoryRange { base: u64::MAX, size: 0 }, MemoryRange { base: 7, size: u64::MAX }]] {
            platform.reserved = Reserved::new(ranges).unwrap();
            let mut found = Found::default();
            read_text(&text(&platform), &mut found).unwrap();
            assert_eq!((found.numbers.map(Option::unwrap), &found.reserved[..]), (values(&platform), ranges));
        }
    }

    #[test]
    fn wrong_platform_files() {
        for wrong in ["window_base", "base = 1", "vendor = 65536", "vendor = 1\nvendor = 1", "vendor = ", "reserved = 1"] {
            assert!(read_text(wrong, &mut Found::default()).is_err(), "{wrong}");
        }
        let right = "# nothing\n\n  vendor=1 # here\nheap-base = 0x10\nreserved = 1+2\nreserved = 1+2\n";
        assert!(read_text(right, &mut Found::default()).is_ok());
    }
}
