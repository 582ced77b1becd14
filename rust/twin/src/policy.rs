//! Rules 26 and 27: where the policy file stands, and whether it is of the grammar. It is read from its first byte to its last, and the first field
//! that is wrong is where the reading stops. Elements are not kept, since there may be thousands: rule 29 reads them again, now without a fault.

mod element;
mod fault;
mod list;

use crate::field::part;
use crate::heap::OsSinitData;
use crate::{need, Stop};
pub use element::{Body, Digests, Element};
pub use fault::{Fault, Field, Holder, Wrong};
use inputs::MemoryRange;
pub use list::{List, Signed};

/// What a policy file begins with, before four zeros.
pub const MARK: &str = "Intel(R) TXT LCP_POLICY_DATA";
/// The bytes of the mark with its four zeros, and of the zeros behind it.
pub const MARK_LENGTH: usize = 32;
pub const ZEROS: usize = 3;
/// The offset of the list count, and of the first list.
pub const LIST_COUNT: usize = MARK_LENGTH + ZEROS;
pub const FIRST_LIST: usize = LIST_COUNT + 1;
/// The least and the greatest number of bytes of a policy file: none is shorter than what stands before its lists.
pub const LEAST: usize = FIRST_LIST;
pub const MOST: usize = 65_536;
/// The most lists of a policy file.
pub const MOST_LISTS: u64 = 8;

/// The versions of a list.
pub const LIST_VERSIONS: [u16; 2] = [0x0200, 0x0201];
/// The signature algorithms of a list: none, and RSASSA.
pub const UNSIGNED: u16 = 0x0010;
pub const RSASSA: u16 = 0x0014;
/// The bytes of a list before its elements: its version, signature algorithm and elements size.
pub const LIST_HEAD: usize = 8;
/// The sizes of a key, and of a signature, in bytes.
pub const KEY_SIZES: [u16; 2] = [256, 384];

/// The bytes of an element before its body: its size, type and control.
pub const ELEMENT_HEAD: usize = 12;
/// The type of a launch element.
pub const LAUNCH: u32 = 0x10;
/// The type of an STM element.
pub const STM: u32 = 0x14;
/// The elements that a list may hold besides launch and STM elements and still permit.
pub const CUSTOM: u32 = 3;

/// The algorithm by which a list names an image or an STM image, and by which the record names the policy file.
pub const SHA256: u16 = 0x000b;
/// The bit of a record's LcpHashAlgMask by which it permits that algorithm.
pub const SHA256_PERMITTED: u16 = 0x0008;

/// The algorithms of digests: HashAlg, the bytes of a digest, and the name.
pub const ALGORITHMS: [(u16, usize, &str); 5] =
    [(0x0004, 20, "SHA1"), (SHA256, 32, "SHA256"), (0x000c, 48, "SHA384"), (0x000d, 64, "SHA512"), (0x0012, 32, "SM3_256")];

/// The bytes of a digest of this algorithm, and its name; none for an algorithm that is not of the grammar.
pub fn algorithm(hash_alg: u16) -> Option<(usize, &'static str)> {
    let (_, length, name) = ALGORITHMS.into_iter().find(|(known, _, _)| *known == hash_alg)?;
    Some((length, name))
}

/// Whether elements of this type are judged; a list with another permits no image.
pub fn judged(kind: u32) -> bool {
    matches!(kind, LAUNCH | CUSTOM | STM)
}

/// Rule 26: the policy file in the window.
pub fn place<'a>(window: &'a [u8], window_base: u64, asked: &OsSinitData) -> Result<&'a [u8], Stop> {
    let MemoryRange { base, size } = asked.file;
    need((LEAST as u64..=MOST as u64).contains(&size), Fault::Size)?;
    let offset = base.checked_sub(window_base).ok_or(Fault::Outside)?;
    Ok(part(window, offset, size).ok_or(Fault::Outside)?)
}

/// How many lists a policy file has; 26 by its length alone, else 27.
pub fn read(file: &[u8]) -> Result<usize, Stop> {
    lists(file).map(|lists| lists.len())
}

/// The lists of a policy file; 26 by its length alone, else 27.
pub fn lists(file: &[u8]) -> Result<Vec<List<'_>>, Stop> {
    need((LEAST..=MOST).contains(&file.len()), Fault::Length)?;
    let whole = Holder::file(file, 0);
    let (mark, zeros) = file[..MARK_LENGTH].split_at(MARK.len());
    need(mark == MARK.as_bytes() && zeros.iter().all(|byte| *byte == 0), whole.wrong(Field::Mark, 0))?;
    let zeros = &file[MARK_LENGTH..LIST_COUNT];
    need(zeros.iter().all(|byte| *byte == 0), whole.wrong(Field::Zeros, MARK_LENGTH))?;
    let count = file[LIST_COUNT];
    need((1..=MOST_LISTS).contains(&u64::from(count)), whole.wrong(Field::ListCount, LIST_COUNT))?;
    let mut lists = Vec::with_capacity(usize::from(count));
    let mut at = FIRST_LIST;
    for index in 0..usize::from(count) {
        let list = List::read(file, at, index)?;
        at += list.bytes.len();
        lists.push(list);
    }
    need(at == file.len(), whole.wrong(Field::AfterLists, at))?;
    Ok(lists)
}
