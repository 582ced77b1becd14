//! What the tests of rule 20 share: regions by pages of the window, and tables of rows that say for which table or page a 20 is answered. By the
//! number alone a row that means a page would pass as well where a table is refused before it. Which it is, the finding says, by the check in
//! ordinary Rust.

use crate::common::*;
use bleiwurzel::finding;

pub const NONE: Region = (0, 0);
pub const PAGE_BYTES: u64 = PAGE as u64;

/// From one page of the window on, and up to another one.
pub fn from_page_to(image: &Image, from: usize, to: usize) -> Region {
    (image.address(from), ((to - from) * PAGE) as u64)
}

/// What is answered. Tables and pages are named by their pages of the window.
#[derive(Clone, Copy)]
pub enum Answered {
    /// Permitted, or refused by another rule than 20.
    Number(u32),
    /// 20 for a page.
    Page(usize),
    /// 20 for a table, with its kind.
    Table(usize, &'static str),
}

impl Answered {
    pub fn said(self, image: &Image) -> String {
        let range = |page: usize| format!("{:#x} to {:#x}", image.address(page), image.address(page + 1) - 1);
        match self {
            Answered::Number(number) => number.to_string(),
            Answered::Page(page) => format!("20 for page {}", range(page)),
            Answered::Table(page, kind) => format!("20 for table page {} ({kind})", range(page)),
        }
    }
}

/// What is answered, after all that is looked at beside the number.
pub fn answered(name: &str, image: &Image) -> String {
    match asked(name, image).number {
        20 => {
            let finding = finding::first(&image.parts(), &image.platform, image.places).expect("a finding");
            format!("20 for {}", finding.found)
        }
        number => number.to_string(),
    }
}

/// What is changed in a good image, and what is answered then.
pub type Row = Changed<Answered>;

/// Holds the check to a table of such rows.
#[track_caller]
pub fn hold_answered(good: &Image, rows: &[Row]) {
    hold_by(good, rows, |name, image, expected| (answered(name, image), expected.said(image)));
}
