//! A list of a policy file: its head, its elements, and what stands behind them where it is signed.

use super::fault::{Field, Holder};
use super::{judged, Element, KEY_SIZES, LIST_HEAD, LIST_VERSIONS, RSASSA, STM, UNSIGNED};
use crate::field::{u16_in, u32_in};
use crate::{need, Stop};

/// A list that is of the grammar.
#[derive(Clone, Copy, Debug, PartialEq, Eq)]
pub struct List<'a> {
    file: &'a [u8],
    elements: Holder,
    /// The whole list, key and signature included.
    pub bytes: &'a [u8],
    pub signed: Option<Signed<'a>>,
    /// Whether all its elements are of types that are judged.
    pub judged: bool,
    /// Whether it holds STM elements.
    pub stm: bool,
}

/// What stands behind the elements of a signed list.
#[derive(Clone, Copy, Debug, PartialEq, Eq)]
pub struct Signed<'a> {
    pub counter: u16,
    /// The offset of the key in the file; the signature follows it.
    pub key_at: usize,
    pub key: &'a [u8],
    pub signature: &'a [u8],
}

impl<'a> List<'a> {
    /// The list of this number at an offset.
    pub(super) fn read(file: &'a [u8], at: usize, list: usize) -> Result<Self, Stop> {
        let whole = Holder::file(file, list);
        let version = u16_in(file, at).ok_or(whole.lacks(Field::ListVersion, at))?;
        need(LIST_VERSIONS.contains(&version), whole.wrong(Field::ListVersion, at))?;
        let algorithm = u16_in(file, at + 2).ok_or(whole.lacks(Field::SignatureAlgorithm, at + 2))?;
        need([UNSIGNED, RSASSA].contains(&algorithm), whole.wrong(Field::SignatureAlgorithm, at + 2))?;
        let size = u32_in(file, at + 4).ok_or(whole.lacks(Field::ElementsSize, at + 4))? as usize;
        let begin = at + LIST_HEAD;
        need(size <= file.len() - begin, whole.wrong(Field::ElementsSize, at + 4))?;
        let elements = Holder { begin, end: begin + size, list, element: 0 };
        let (judged, stm) = types(file, elements)?;
        let signed = match algorithm {
            RSASSA => Some(Signed::read(file, elements.end, whole)?),
            _ => None,
        };
        let end = signed.map_or(elements.end, |signed| signed.key_at + 2 * signed.key.len());
        Ok(List { file, elements, bytes: &file[at..end], signed, judged, stm })
    }

    /// The elements, in file order.
    pub fn elements(&self) -> impl Iterator<Item = Element<'a>> {
        let (file, mut holder) = (self.file, self.elements);
        std::iter::from_fn(move || {
            if holder.begin == holder.end {
                return None;
            }
            let element = Element::read(file, holder.begin, holder).ok()?;
            holder.begin = element.end();
            Some(element)
        })
    }

    /// What is signed: all of a signed list but its signature.
    pub fn message(&self) -> &'a [u8] {
        &self.bytes[..self.bytes.len() - self.signed.map_or(0, |signed| signed.signature.len())]
    }
}

/// Whether all elements are of types that are judged, and whether there are STM elements; every element is read on the way.
fn types(file: &[u8], mut elements: Holder) -> Result<(bool, bool), Stop> {
    let (mut at, mut all_judged, mut stm) = (elements.begin, true, false);
    while at < elements.end {
        let element = Element::read(file, at, elements)?;
        all_judged &= judged(element.kind);
        stm |= element.kind == STM;
        at = element.end();
        elements.element += 1;
    }
    Ok((all_judged, stm))
}

impl<'a> Signed<'a> {
    /// What stands at this offset, behind the elements.
    fn read(file: &'a [u8], at: usize, whole: Holder) -> Result<Self, Stop> {
        let counter = u16_in(file, at).ok_or(whole.lacks(Field::Counter, at))?;
        let size = u16_in(file, at + 2).ok_or(whole.lacks(Field::KeySize, at + 2))?;
        need(KEY_SIZES.contains(&size), whole.wrong(Field::KeySize, at + 2))?;
        let (key_at, size) = (at + 4, usize::from(size));
        let both = file.get(key_at..key_at + 2 * size).ok_or(whole.wrong(Field::LargeKey, at + 2))?;
        let (key, signature) = both.split_at(size);
        Ok(Signed { counter, key_at, key, signature })
    }
}
