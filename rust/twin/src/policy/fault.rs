//! What of a policy file's place or grammar is wrong: which field, and where what holds it begins and ends.

use crate::{Place, Stop};

/// What is wrong.
#[derive(Clone, Copy, Debug, PartialEq, Eq)]
pub enum Fault {
    /// 26: the size that OsSinitData states; the place that it states; the length of a file by itself.
    Size,
    Outside,
    Length,
    /// 27.
    Grammar(Wrong),
}

/// A field that is wrong or does not fit.
#[derive(Clone, Copy, Debug, PartialEq, Eq)]
pub struct Wrong {
    pub field: Field,
    /// Whether what must hold it holds all its bytes, so that it is the value that is wrong.
    pub fits: bool,
    /// Its offset from the file's first byte, which is the place of the refusal.
    pub at: usize,
    /// What must hold it.
    pub holder: Holder,
}

/// What holds a field: the file, the elements of a list, or an element, by the offsets of its first byte and of the byte behind it. The numbers of
/// the list and the element count from 0, where the field is of one.
#[derive(Clone, Copy, Debug, PartialEq, Eq)]
pub struct Holder {
    pub begin: usize,
    pub end: usize,
    pub list: usize,
    pub element: usize,
}

/// The fields of a policy file, in file order.
#[derive(Clone, Copy, Debug, PartialEq, Eq)]
pub enum Field {
    Mark,
    Zeros,
    ListCount,
    ListVersion,
    SignatureAlgorithm,
    ElementsSize,
    /// Too few bytes are left in the list's elements for another one.
    NoElement,
    /// The size of an element is less than that of its head; it is more than what is left of the list's elements.
    SmallElement,
    LargeElement,
    SinitMinVersion,
    Reserved,
    HashAlg,
    /// With the bytes of a digest.
    DigestCount {
        length: usize,
    },
    /// Bytes behind so many digests of so many bytes.
    AfterDigests {
        count: u16,
        length: usize,
    },
    Counter,
    KeySize,
    /// The key size is one that there is, and key and signature of this size do not fit.
    LargeKey,
    /// Bytes behind the last list.
    AfterLists,
}

impl Holder {
    /// The file as what holds a list, or what is no list.
    pub(super) fn file(file: &[u8], list: usize) -> Self {
        Holder { begin: 0, end: file.len(), list, element: 0 }
    }

    /// A field that is there and is wrong.
    pub(super) fn wrong(self, field: Field, at: usize) -> Wrong {
        Wrong { field, fits: true, at, holder: self }
    }

    /// A field that does not fit.
    pub(super) fn lacks(self, field: Field, at: usize) -> Wrong {
        Wrong { field, fits: false, at, holder: self }
    }
}

impl From<Fault> for Stop {
    fn from(fault: Fault) -> Self {
        let number = if let Fault::Grammar(_) = fault { 27 } else { 26 };
        Stop { number, place: Place::Policy(fault) }
    }
}

impl From<Wrong> for Stop {
    fn from(wrong: Wrong) -> Self {
        Fault::Grammar(wrong).into()
    }
}
