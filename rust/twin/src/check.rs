//! The whole check: its stages in the order of the rules, and the answer. A refusal leaves the page list as it is.

use crate::heap::{self, OsSinitData};
use crate::lists::{self, Criteria, Stm};
use crate::module::{self, Module};
use crate::policy::{self, Fault, List};
use crate::record::{self, Record};
use crate::walk::{self, Mapped, Memory};
use crate::{capture, image, limits, Place, Stop};
use inputs::{Answer, Parts, Platform, NO_LIST};

/// What the stages before the digest of the image have found.
pub struct Found<'a> {
    pub asked: OsSinitData,
    pub module: Module,
    pub mapped: Mapped,
    pub record: Record<'a>,
    /// The lists of the policy file; none under ANY.
    pub lists: Option<Vec<List<'a>>>,
}

impl Found<'_> {
    /// The digest of the image.
    pub fn digest(&self, parts: &Parts, platform: &Platform) -> [u8; 32] {
        image::digest(parts.window, platform.window_base, &self.mapped)
    }

    /// What lists are judged by, where the image has this digest.
    pub fn criteria(&self, digest: [u8; 32]) -> Criteria<'_> {
        Criteria { record: &self.record, acm_version: self.module.acm_version, digest }
    }
}

/// Rules 1 to 28. `module_length` is the length of the SINIT module, of which less may be held where it is too long for the platform.
pub fn find<'a>(parts: &Parts<'a>, module_length: u64, platform: &Platform, places: usize) -> Result<Found<'a>, Stop> {
    limits::hold(parts, platform)?;
    let asked = heap::read(parts.heap)?;
    let module = module::read(parts.sinit, module_length, platform)?;
    module::knows_version(&module, &asked)?;
    let pages = image::page_count(&asked, places)?;
    let mapped = walk::walk(&Memory::new(parts, platform, &asked), asked.tables, pages)?;
    image::counted(&mapped, pages)?;
    image::header(parts.window, platform.window_base, &asked, &module, &mapped)?;
    let record = record::read(parts.record)?;
    record::allows(&record, &module)?;
    let mut found = Found { asked, module, mapped, record, lists: None };
    if !record.any() {
        let lists = policy::lists(policy::place(parts.window, platform.window_base, &asked)?)?;
        lists::hash(&lists, &record)?;
        found.lists = Some(lists);
    }
    Ok(found)
}

/// The check. On a permission the first places of `pages` get the physical addresses of the image's pages in linear order, and the others stay. On a
/// refusal all places stay.
pub fn answer(parts: &Parts, platform: &Platform, pages: &mut [u64]) -> Answer {
    permission(parts, platform, pages).unwrap_or_else(refusal)
}

fn permission(parts: &Parts, platform: &Platform, pages: &mut [u64]) -> Result<Answer, Stop> {
    let found = find(parts, parts.sinit.len() as u64, platform, pages.len())?;
    let digest = found.digest(parts, platform);
    let list = match &found.lists {
        Some(lists) => lists::lowest_permitting(lists, &found.criteria(digest), &mut Stm::of(parts.stm))? as u32,
        None => NO_LIST,
    };
    let listed = &found.mapped.pages;
    pages[..listed.len()].copy_from_slice(listed);
    Ok(Answer { number: 0, pages: listed.len() as u32, list, place: 0, digest })
}

fn refusal(stop: Stop) -> Answer {
    let place = match stop.place {
        Place::Policy(Fault::Grammar(wrong)) => wrong.at as u32,
        _ => 0,
    };
    Answer { number: stop.number, pages: 0, list: NO_LIST, place, digest: [0; 32] }
}

/// The check of a capture file; 30 where the bytes are no capture.
pub fn answer_capture(capture: &[u8], pages: &mut [u64]) -> Answer {
    match capture::split(capture) {
        Ok((parts, platform)) => answer(&parts, &platform, pages),
        Err(fault) => refusal(fault.into()),
    }
}
