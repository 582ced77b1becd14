//! What is said of rules 12, 13, 21 and 22: the number of pages and the MLE header.

use super::{bytes, counted, heap, module, on_a_page, spaced, words, Asked, Words};
use crate::{MOST_PAGES, PAGE_SIZE};
use twin::image::{Fault, Header, HeaderFault, HeaderField, HEADER_LENGTH, UUID};

pub fn said(fault: Fault, asked: &Asked) -> Option<Words> {
    match fault {
        Fault::NoPage | Fault::PartOfAPage | Fault::TooManyPages | Fault::FewPlaces { .. } => of_size(fault, asked),
        Fault::PageCount { mapped, asked } => {
            let expected = format!("{asked}, which is MLE Size / {PAGE_SIZE}");
            Some(words("the number of pages that the tables map", expected, mapped.to_string()))
        }
        Fault::Header(fault) => match fault.field {
            HeaderField::Base | HeaderField::Offset => of_base(fault, asked),
            _ => of_header(fault, asked),
        },
    }
}

fn of_size(fault: Fault, asked: &Asked) -> Option<Words> {
    let os_sinit_data = asked.os_sinit_data()?;
    let size = os_sinit_data.mle_size;
    let place = heap::place(&os_sinit_data, "MLE Size", 16);
    let found = format!("{size} ({size:#x})");
    Some(match fault {
        Fault::NoPage => words(place, format!("at least {PAGE_SIZE}, one page"), found),
        Fault::PartOfAPage => words(place, on_a_page(), found),
        Fault::FewPlaces { pages } => {
            let expected = format!("at least {}, as many as MLE Size has pages", counted(pages, "place"));
            let lent = words("the page list that was lent", expected, counted(asked.places as u64, "place"));
            lent.noted(vec![format!("{place}: {found}")])
        }
        _ => {
            let expected = format!("at most {MOST_PAGES} pages, {} bytes", MOST_PAGES as u64 * PAGE_SIZE);
            words(place, expected, format!("{found}, {} pages", size / PAGE_SIZE))
        }
    })
}

/// The linear addresses that are mapped, from the first to the last.
fn range(fault: HeaderFault) -> String {
    format!("{:#x} to {:#x}", fault.begin, fault.end - 1)
}

fn of_base(fault: HeaderFault, asked: &Asked) -> Option<Words> {
    let os_sinit_data = asked.os_sinit_data()?;
    let base = os_sinit_data.header_base;
    let place = heap::place(&os_sinit_data, "MLE header base", 24);
    if fault.field == HeaderField::Base {
        let expected = format!("a linear address in the mapped range, {}", range(fault));
        return Some(words(place, expected, format!("{base:#x}")));
    }
    let most = PAGE_SIZE - HEADER_LENGTH;
    let expected = format!("at most {most} bytes into its page, so that {HEADER_LENGTH} bytes fit");
    Some(words(place, expected, format!("{base:#x}, which is {} into its page", bytes(base % PAGE_SIZE))))
}

fn of_header(fault: HeaderFault, asked: &Asked) -> Option<Words> {
    let (window_base, begin) = (asked.platform.window_base, fault.begin);
    let header = Header::at(asked.parts.window, window_base, fault.address);
    let place = |name: &str, offset: u64| {
        let address = fault.address + offset;
        let at = address - window_base;
        format!("{name}, offset {offset} in the MLE header (physical {address:#x}, window offset {at:#x})")
    };
    let hex = |number: u32| format!("{number:#x}");
    Some(match fault.field {
        HeaderField::Uuid => words(place("UUID", 0), spaced(&UUID), spaced(&header.uuid)),
        HeaderField::HeaderLen => {
            words(place("HeaderLen", 16), format!("at least {HEADER_LENGTH}"), header.header_len.to_string())
        }
        HeaderField::Version => {
            let (table, information) = module::information(asked.parts.sinit)?;
            let (least, of) = (information.min_mle_header_version, module::in_table(table, "MinMleHeaderVer", 28));
            words(place("version", 20), format!("at least {least:#x}, which is {of}"), hex(header.version))
        }
        HeaderField::EntryPoint => {
            let expected = format!("in the mapped linear range, {}", range(fault));
            words(place("EntryPoint", 24), expected, hex(header.entry_point))
        }
        HeaderField::FirstValidPage => {
            let expected = format!("{begin:#x}, the first linear page's address");
            words(place("FirstValidPage", 28), expected, hex(header.first_valid_page))
        }
        _ => words(
            place("MleStart and MleEnd", 32),
            format!("MleEnd = MleStart + MLE Size {:#x}", asked.os_sinit_data()?.mle_size),
            format!("MleStart {:#x}, MleEnd {:#x}", header.mle_start, header.mle_end),
        ),
    })
}
