//! An element of a policy list, and the digests that a launch or an STM element names.

use super::fault::{Field, Holder};
use super::{algorithm, CUSTOM, ELEMENT_HEAD, LAUNCH, SHA256, STM};
use crate::field::{u16_in, u32_at};
use crate::{need, Stop};

/// An element that is of the grammar.
#[derive(Clone, Copy, Debug, PartialEq, Eq)]
pub struct Element<'a> {
    /// Its offset in the file.
    pub at: usize,
    /// The whole element, its size, type and control included.
    pub bytes: &'a [u8],
    pub kind: u32,
    pub body: Body<'a>,
}

/// What of an element's body is judged.
#[derive(Clone, Copy, Debug, PartialEq, Eq)]
pub enum Body<'a> {
    /// It names images.
    Launch { sinit_min_version: u8, digests: Digests<'a> },
    /// It names STM images.
    Stm(Digests<'a>),
    /// It may hold anything.
    Custom,
    /// Elements of other types are not judged.
    Unjudged,
}

/// Digests of one algorithm, one behind the other.
#[derive(Clone, Copy, Debug, PartialEq, Eq)]
pub struct Digests<'a> {
    pub hash_alg: u16,
    pub count: u16,
    bytes: &'a [u8],
}

impl<'a> Element<'a> {
    /// The element at an offset of these elements.
    #[inline]
    pub(super) fn read(file: &'a [u8], at: usize, elements: Holder) -> Result<Self, Stop> {
        let left = elements.end - at;
        need(left >= ELEMENT_HEAD, elements.wrong(Field::NoElement, at))?;
        let size = u32_at(file, at) as usize;
        if !(ELEMENT_HEAD..=left).contains(&size) {
            let field = if size < ELEMENT_HEAD { Field::SmallElement } else { Field::LargeElement };
            return Err(elements.wrong(field, at).into());
        }
        let element = Holder { begin: at, end: at + size, ..elements };
        let kind = u32_at(file, at + 4);
        // Fields of the body must end in the element, so that what follows it is not looked at.
        let (held, body) = (&file[..element.end], at + ELEMENT_HEAD);
        let body = match kind {
            LAUNCH => {
                let sinit_min_version = *held.get(body).ok_or(element.lacks(Field::SinitMinVersion, body))?;
                need(body + 1 < element.end, element.lacks(Field::Reserved, body + 1))?;
                Body::Launch { sinit_min_version, digests: Digests::read(held, body + 2, element)? }
            }
            STM => Body::Stm(Digests::read(held, body, element)?),
            CUSTOM => Body::Custom,
            _ => Body::Unjudged,
        };
        Ok(Element { at, bytes: &held[at..], kind, body })
    }

    /// The offset behind it.
    pub fn end(&self) -> usize {
        self.at + self.bytes.len()
    }
}

impl<'a> Digests<'a> {
    /// The algorithm, the count and the digests that stand at an offset and fill the element up to its end.
    #[inline]
    fn read(held: &'a [u8], at: usize, element: Holder) -> Result<Self, Stop> {
        let hash_alg = u16_in(held, at).ok_or(element.lacks(Field::HashAlg, at))?;
        let (length, _) = algorithm(hash_alg).ok_or(element.wrong(Field::HashAlg, at))?;
        let of_count = Field::DigestCount { length };
        let count = u16_in(held, at + 2).ok_or(element.lacks(of_count, at + 2))?;
        let end = at + 4 + usize::from(count) * length;
        let bytes = held.get(at + 4..end).ok_or(element.wrong(of_count, at + 2))?;
        need(end == held.len(), element.wrong(Field::AfterDigests { count, length }, end))?;
        Ok(Digests { hash_alg, count, bytes })
    }

    pub fn by_sha256(&self) -> bool {
        self.hash_alg == SHA256
    }

    /// Whether one of them is this one, by SHA-256.
    pub fn name(&self, digest: &[u8; 32]) -> bool {
        self.by_sha256() && self.bytes.chunks_exact(digest.len()).any(|named| named == digest)
    }
}
