//! Rules 12, 13, 21 and 22: how many pages the image is said to have and has, and its MLE header. And the digest of its pages.

use crate::field::u32_at;
use crate::heap::OsSinitData;
use crate::module::Module;
use crate::walk::Mapped;
use crate::{need, Place, Stop};
use inputs::{MOST_PAGES, PAGE_SIZE};
use plain_sha256::Sha256;
use std::ops::Range;

/// What an MLE header begins with.
pub const UUID: [u8; 16] = [0x5a, 0xac, 0x82, 0x90, 0x6f, 0x47, 0xa7, 0x74, 0x0f, 0x5c, 0x55, 0xa2, 0xcb, 0x51, 0xb6, 0x42];
/// The bytes of the header that are read, which stand in one page.
pub const HEADER_LENGTH: u64 = 52;

/// What of the image is wrong.
#[derive(Clone, Copy, Debug, PartialEq, Eq)]
pub enum Fault {
    /// 12: MLE Size is 0, no multiple of a page, or over the limit.
    NoPage,
    PartOfAPage,
    TooManyPages,
    /// 13: the page list has fewer places than the image pages.
    FewPlaces {
        pages: u64,
    },
    /// 21: the tables map so many pages, and not as many as MLE Size says.
    PageCount {
        mapped: u64,
        asked: u64,
    },
    /// 22.
    Header(HeaderFault),
}

/// What of the MLE header is wrong.
#[derive(Clone, Copy, Debug, PartialEq, Eq)]
pub struct HeaderFault {
    pub field: HeaderField,
    /// The physical address of the header, where its page is mapped.
    pub address: u64,
    /// The linear addresses that are mapped: the first, and the one behind the last.
    pub begin: u64,
    pub end: u64,
}

#[derive(Clone, Copy, Debug, PartialEq, Eq)]
pub enum HeaderField {
    /// The header base is not mapped, or too near to its page's end.
    Base,
    Offset,
    Uuid,
    HeaderLen,
    Version,
    EntryPoint,
    FirstValidPage,
    /// MleStart and MleEnd.
    Extent,
}

impl From<Fault> for Stop {
    fn from(fault: Fault) -> Self {
        let number = match fault {
            Fault::NoPage | Fault::PartOfAPage | Fault::TooManyPages => 12,
            Fault::FewPlaces { .. } => 13,
            Fault::PageCount { .. } => 21,
            Fault::Header(_) => 22,
        };
        Stop { number, place: Place::Image(fault) }
    }
}

/// Rule 12: how many pages an image of so many bytes has.
pub fn pages(mle_size: u64) -> Result<u64, Stop> {
    let pages = mle_size / PAGE_SIZE;
    need(mle_size != 0, Fault::NoPage)?;
    need(mle_size % PAGE_SIZE == 0, Fault::PartOfAPage)?;
    need(pages <= MOST_PAGES as u64, Fault::TooManyPages)?;
    Ok(pages)
}

/// Rules 12 and 13: how many pages the image is said to have.
pub fn page_count(asked: &OsSinitData, places: usize) -> Result<usize, Stop> {
    let pages = pages(asked.mle_size)?;
    need(pages <= places as u64, Fault::FewPlaces { pages })?;
    Ok(pages as usize)
}

/// Rule 21.
pub fn counted(mapped: &Mapped, asked: usize) -> Result<(), Stop> {
    let pages = mapped.pages.len();
    Ok(need(pages == asked, Fault::PageCount { mapped: pages as u64, asked: asked as u64 })?)
}

/// The fields of an MLE header.
#[derive(Clone, Copy, Debug, PartialEq, Eq)]
pub struct Header {
    pub uuid: [u8; 16],
    pub header_len: u32,
    pub version: u32,
    pub entry_point: u32,
    pub first_valid_page: u32,
    pub mle_start: u32,
    pub mle_end: u32,
}

impl Header {
    /// The header at a physical address, which is in the window. No field is judged.
    pub fn at(window: &[u8], window_base: u64, address: u64) -> Self {
        let header = &window[(address - window_base) as usize..][..HEADER_LENGTH as usize];
        let mut uuid = [0; 16];
        uuid.copy_from_slice(&header[..16]);
        let [header_len, version, entry_point, first_valid_page, mle_start, mle_end] =
            [16, 20, 24, 28, 32, 36].map(|at| u32_at(header, at));
        Header { uuid, header_len, version, entry_point, first_valid_page, mle_start, mle_end }
    }
}

/// Rule 22.
pub fn header(window: &[u8], window_base: u64, asked: &OsSinitData, module: &Module, mapped: &Mapped) -> Result<(), Stop> {
    let linear = linear(mapped);
    let (begin, end, base) = (linear.start, linear.end, asked.header_base);
    let fault = |field, address| Fault::Header(HeaderFault { field, address, begin, end });
    need(linear.contains(&base), fault(HeaderField::Base, 0))?;
    let offset = base % PAGE_SIZE;
    let address = mapped.pages[((base - begin) / PAGE_SIZE) as usize] + offset;
    need(offset <= PAGE_SIZE - HEADER_LENGTH, fault(HeaderField::Offset, address))?;
    let header = Header::at(window, window_base, address);
    let holds = |condition, field| need(condition, fault(field, address));
    holds(header.uuid == UUID, HeaderField::Uuid)?;
    holds(u64::from(header.header_len) >= HEADER_LENGTH, HeaderField::HeaderLen)?;
    holds(header.version >= module.min_mle_header_version, HeaderField::Version)?;
    holds(linear.contains(&u64::from(header.entry_point)), HeaderField::EntryPoint)?;
    holds(u64::from(header.first_valid_page) == begin, HeaderField::FirstValidPage)?;
    let size = header.mle_end.checked_sub(header.mle_start).map(u64::from);
    Ok(holds(size == Some(asked.mle_size), HeaderField::Extent)?)
}

/// The linear addresses that are mapped.
fn linear(mapped: &Mapped) -> Range<u64> {
    let begin = mapped.first * PAGE_SIZE;
    begin..begin + mapped.pages.len() as u64 * PAGE_SIZE
}

/// SHA-256 over the pages in linear order.
pub fn digest(window: &[u8], window_base: u64, mapped: &Mapped) -> [u8; 32] {
    let mut digest = Sha256::new();
    for page in &mapped.pages {
        digest.update(&window[(page - window_base) as usize..][..PAGE_SIZE as usize]);
    }
    digest.finish()
}
