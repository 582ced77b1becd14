//! What is handed to the check, and what it answers: the parts, the platform, the limits of their sizes, the answer as a permission or a refusal,
//! and what is written about each refusal. The proved library and the check in ordinary Rust take and give the same.
#![forbid(unsafe_code)]

pub mod limits;
pub mod refusals;
mod reserved;

pub use limits::*;
pub use reserved::{MemoryRange, Reserved, TooMany};
use std::fmt;

/// What the launch will see, lent for reading.
#[derive(Clone, Copy, Debug)]
pub struct Parts<'a> {
    /// The memory from `window_base` on: page tables, the image's pages and, under LIST, the policy file.
    pub window: &'a [u8],
    /// The TXT heap from its first byte on: BiosData, OsMleData, OsSinitData.
    pub heap: &'a [u8],
    /// The SINIT module, of header version 0.0 or 3.0.
    pub sinit: &'a [u8],
    /// The policy record, 70 bytes.
    pub record: &'a [u8],
    /// The STM image: exactly the bytes that SINIT measures, which are the STM's static image, and empty if there is none. All of it is
    /// hashed, and no field of it is read.
    pub stm: &'a [u8],
}

/// Numbers of the platform. All addresses are physical.
#[derive(Clone, Copy, Debug, Default, PartialEq, Eq)]
pub struct Platform {
    pub window_base: u64,
    pub heap_base: u64,
    pub sinit_base: u64,
    pub dpr_base: u64,
    pub dpr_size: u64,
    /// The most bytes of an authenticated module.
    pub acram_capacity: u64,
    /// The chipset.
    pub vendor: u16,
    pub device: u16,
    pub revision: u16,
    /// What the firmware keeps for itself or for devices; by default no range.
    pub reserved: Reserved,
}

/// The answer as the library gives it. On a refusal `pages` is 0, `list` 255 and the digest all zero; `place` is that of [`Refusal`], and 0 on a
/// permission.
#[derive(Clone, Copy, Debug, PartialEq, Eq)]
pub struct Answer {
    pub number: u32,
    pub pages: u32,
    pub list: u32,
    pub place: u32,
    pub digest: [u8; 32],
}

impl Answer {
    /// The answer as a permission or a refusal.
    pub fn result(&self) -> Result<Permission, Refusal> {
        if self.number != 0 {
            return Err(Refusal { number: self.number, place: self.place });
        }
        let list = u8::try_from(self.list).ok().filter(|_| self.list != NO_LIST);
        Ok(Permission { pages: self.pages as usize, list, digest: self.digest })
    }
}

/// The launch is permitted.
#[derive(Clone, Copy, Debug, PartialEq, Eq)]
pub struct Permission {
    /// How many pages the image has; as many places of the page list have been written.
    pub pages: usize,
    /// The lowest list that permits, counted from 0; none under an ANY policy.
    pub list: Option<u8>,
    /// SHA-256 over the pages in linear order.
    pub digest: [u8; 32],
}

/// The launch, or the policy file that was asked for, is refused.
#[derive(Clone, Copy, Debug, PartialEq, Eq)]
pub struct Refusal {
    /// 1 to 30 of a launch; 26 and 27 of the reader of policy files, 31 to 33 of their writer.
    pub number: u32,
    /// Of 27 the offset, from the policy file's first byte, of the first field in file order whose rule fails or that does not fit; it may be 0,
    /// and where a field is missing it may be the file's length. Of every other number 0.
    pub place: u32,
}

/// The number that comes with a place: the policy file is not of the grammar.
pub const PLACED: u32 = 27;

impl Refusal {
    /// The line that the capture program prints: `refused 20`, and of 27 with its place, `refused 27 at 36`.
    pub fn line(&self) -> String {
        match self.number {
            PLACED => format!("refused {PLACED} at {}", self.place),
            number => format!("refused {number}"),
        }
    }

    /// What it means, in one sentence.
    pub fn meaning(&self) -> &'static str {
        self.text().map_or("This number has no meaning here.", |text| text.meaning)
    }

    /// All that is written about it.
    pub fn text(&self) -> Option<&'static refusals::Text> {
        refusals::text(self.number)
    }
}

impl fmt::Display for Refusal {
    fn fmt(&self, f: &mut fmt::Formatter) -> fmt::Result {
        write!(f, "{}: {}", self.line(), self.meaning())
    }
}

impl std::error::Error for Refusal {}
