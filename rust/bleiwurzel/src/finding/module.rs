//! What is said of rules 6 to 11: the SINIT module's place, header, GDT, information table, chipset list and versions.

use super::{bytes, heap, on_a_page, spaced, words, Asked, Words};
use crate::{Platform, MOST_CHIPSETS, MOST_MODULE};
use twin::module::{
    Chipset, Edition, Fault, Header, Information, CHIPSET_LENGTH, COUNT_LENGTH, DESCRIPTOR, EDITIONS, GDT_LIMITS, LENGTH_UNIT,
    SINIT, TABLE_LENGTH, TYPE, UUID, VENDOR,
};

pub fn said(fault: Fault, asked: &Asked) -> Option<Words> {
    use Fault::*;
    match fault {
        Base | Capacity | End | Least | Unit => Some(of_place(fault, asked)),
        Type | Vendor | Version | HeaderLen | KeySize | Size => of_header(fault, asked.parts.sinit),
        GdtBase | GdtEnd | GdtLimit | EntryLow | EntryHigh | Selector | SelectorEnd => of_entry(fault, asked.parts.sinit),
        Table | Uuid | TableType | TableLength => of_table(fault, asked.parts.sinit),
        List | Count | ListEnd => of_list(fault, asked.parts.sinit),
        Fault::Chipset(list) => of_chipsets(list, asked),
        OsSinitDataVersion => of_version(asked),
    }
}

/// The module's information table, with its offset.
pub fn information(sinit: &[u8]) -> Option<(u64, Information)> {
    let table = Header::read(sinit)?.table();
    Some((table, Information::read(sinit, table)?))
}

/// A field of the information table at this offset.
pub fn in_table(table: u64, name: &str, offset: u64) -> String {
    format!("{name} in the module's information table (module offset {:#x})", table + offset)
}

fn in_header(name: &str, at: u64) -> String {
    format!("{name} in the module's header (module offset {at:#x})")
}

fn of_place(fault: Fault, asked: &Asked) -> Words {
    let (length, platform) = (asked.lengths.sinit, asked.platform);
    let of_length = |expected: String, found: String| words("length of the SINIT module", expected, found);
    let base = platform.sinit_base;
    match fault {
        Fault::Base => words("SINIT base of the platform", on_a_page(), format!("{base:#x}")),
        Fault::Capacity => {
            let expected = format!("at most {}, the platform's ACRAM capacity", bytes(platform.acram_capacity));
            of_length(expected, length.to_string())
        }
        Fault::End => {
            let end = u128::from(base) + u128::from(length.bytes);
            let found = length.or_more(format!("{base:#x} + {:#x} = {end:#x}", length.bytes));
            let place = "end of the SINIT module: SINIT base plus its length";
            words(place, format!("at most 2^32 - 1 ({MOST_MODULE:#x})"), found)
        }
        Fault::Least => {
            let edition = Edition::of(asked.parts.sinit);
            // The first edition stands for versions that are not known, too, so it is not named.
            let first = edition == EDITIONS[0];
            let named = if first { String::new() } else { format!(", with header version {}", edition.name) };
            of_length(format!("at least {}{named}", bytes(edition.least_length())), length.to_string())
        }
        _ => {
            let rest = length.bytes % LENGTH_UNIT;
            of_length(format!("a multiple of {LENGTH_UNIT}"), format!("{length}, {rest} too many"))
        }
    }
}

/// A number with the edition whose own it is, if there is one.
fn with_edition(number: u64, own: fn(&Edition) -> u64) -> String {
    let shown = format!("{number} ({number:#x})");
    match EDITIONS.iter().find(|edition| own(edition) == number) {
        Some(edition) => format!("{shown}, as header version {} has it", edition.name),
        None => shown,
    }
}

fn of_header(fault: Fault, sinit: &[u8]) -> Option<Words> {
    let (header, edition, length) = (Header::read(sinit)?, Edition::of(sinit), sinit.len() as u64);
    let fixed = |name, at, value: u32, found: u32| {
        words(in_header(name, at), format!("{value} ({value:#x})"), format!("{found} ({found:#x})"))
    };
    let settled = |name, at, own: fn(&Edition) -> u64, found: u32| {
        words(in_header(name, at), with_edition(own(&edition), own), with_edition(u64::from(found), own))
    };
    Some(match fault {
        Fault::Type => fixed("type", 0, u32::from(TYPE), u32::from(header.kind)),
        Fault::Vendor => fixed("vendor", 16, VENDOR, header.vendor),
        Fault::Version => {
            let versions = EDITIONS.map(|edition| format!("{:#010x} ({})", edition.version, edition.name));
            words(in_header("version", twin::module::VERSION), versions.join(" or "), format!("{:#010x}", header.version))
        }
        Fault::HeaderLen => settled("HeaderLen", 4, |edition| edition.header_len, header.header_len),
        Fault::KeySize => settled("KeySize", 120, |edition| edition.key_size, header.key_size),
        _ => words(
            in_header("size", 24),
            format!("{}, a fourth of the module's {}", length / 4, bytes(length)),
            format!("{}, which makes {}", header.size, bytes(header.stated_length())),
        ),
    })
}

fn of_entry(fault: Fault, sinit: &[u8]) -> Option<Words> {
    let header = Header::read(sinit)?;
    let Header { gdt_base: base, gdt_limit: limit, selector, entry_point: entry, .. } = header;
    let from_e = format!("at least E = 4·HeaderLen + 4·ScratchSize = {:#x}", header.table());
    let inside = format!("below the module's length {:#x}", sinit.len());
    let hex = |number: u32| format!("{number:#x}");
    Some(match fault {
        Fault::GdtBase => words(in_header("GDTBasePtr", 44), from_e, hex(base)),
        Fault::GdtEnd => {
            let sum = u64::from(base) + u64::from(limit);
            words(in_header("GDTBasePtr + GDTLimit", 40), inside, format!("{base:#x} + {limit:#x} = {sum:#x}"))
        }
        Fault::GdtLimit => words(in_header("GDTLimit", 40), format!("below {GDT_LIMITS} ({GDT_LIMITS:#x})"), hex(limit)),
        Fault::EntryLow => words(in_header("EntryPoint", 52), from_e, hex(entry)),
        Fault::EntryHigh => words(in_header("EntryPoint", 52), inside, hex(entry)),
        Fault::Selector => {
            words(in_header("SegSel", 48), format!("a multiple of {DESCRIPTOR}, at least {DESCRIPTOR}"), hex(selector))
        }
        _ => {
            let (more, sum) = (2 * DESCRIPTOR - 1, u64::from(selector) + u64::from(2 * DESCRIPTOR - 1));
            let expected = format!("SegSel + {more} at most GDTLimit {limit}");
            words(in_header("SegSel", 48), expected, format!("{selector} + {more} = {sum}"))
        }
    })
}

fn of_table(fault: Fault, sinit: &[u8]) -> Option<Words> {
    if fault == Fault::Table {
        let (table, length) = (Header::read(sinit)?.table(), sinit.len());
        let place = format!("the module's information table, {TABLE_LENGTH} bytes at E");
        let found = format!("bytes {table:#x} to {:#x} of {length:#x}", table + TABLE_LENGTH - 1);
        return Some(words(place, "inside the module", found));
    }
    let (table, information) = information(sinit)?;
    let place = |name, offset| in_table(table, name, offset);
    Some(match fault {
        Fault::Uuid => words(place("UUID", 0), spaced(&UUID), spaced(&information.uuid)),
        Fault::TableType => words(place("type", 16), format!("{SINIT} (SINIT)"), information.kind.to_string()),
        _ => words(place("length", 18), format!("at least {TABLE_LENGTH}"), information.length.to_string()),
    })
}

fn of_list(fault: Fault, sinit: &[u8]) -> Option<Words> {
    let ((table, information), length) = (information(sinit)?, sinit.len());
    let list = information.chipset_list;
    if fault == Fault::List {
        let expected = format!("{COUNT_LENGTH} bytes for the count inside the module of {length:#x} bytes");
        return Some(words(in_table(table, "chipset list offset", 20), expected, format!("{list:#x}")));
    }
    let count = information.count(sinit)?;
    let place = count_place(list);
    if fault == Fault::Count {
        return Some(words(place, format!("at most {MOST_CHIPSETS}"), count.to_string()));
    }
    let end = u64::from(list) + COUNT_LENGTH + CHIPSET_LENGTH * u64::from(count);
    let expected = format!("a list that ends inside the module of {length:#x} bytes");
    Some(words(place, expected, format!("{count}, with which the list ends at {end:#x}")))
}

fn count_place(list: u32) -> String {
    format!("count of the chipset list (module offset {list:#x})")
}

fn of_chipsets(list: u32, asked: &Asked) -> Option<Words> {
    let (_, information) = information(asked.parts.sinit)?;
    let Platform { vendor, device, revision, .. } = asked.platform;
    let notes: Vec<String> =
        (0..).zip(information.chipsets(asked.parts.sinit).ok()?).map(|entry| of_chipset(list, entry)).collect();
    let words = words(
        format!("chipset list (module offset {list:#x})"),
        format!("an entry for vendor {vendor:#06x} device {device:#06x} revision {revision:#06x}, the platform's"),
        format!("{} in the list, and no match", notes.len()),
    );
    Some(words.noted(notes))
}

fn of_chipset(list: u32, (index, entry): (u64, Chipset)) -> String {
    let at = u64::from(list) + COUNT_LENGTH + CHIPSET_LENGTH * index;
    let kind = if entry.mask { "mask" } else { "=" };
    let Chipset { vendor, device, revision, .. } = entry;
    format!("entry {index} (module offset {at:#x}): vendor {vendor:#06x} device {device:#06x} revision {kind} {revision:#06x}")
}

fn of_version(asked: &Asked) -> Option<Words> {
    let (os_sinit_data, (table, information)) = (asked.os_sinit_data()?, information(asked.parts.sinit)?);
    let known = information.os_sinit_data_version;
    let expected = format!("at most {known}, which is {}", in_table(table, "OsSinitDataVer", 24));
    Some(words(heap::place(&os_sinit_data, "version", 0), expected, os_sinit_data.version.to_string()))
}
