//! For the tests: which field of a policy file stands at a given place, found by walking through the fields in file order. What stands before the
//! place is taken to be right, so that nothing is judged here; what the finding says of a refusal is compared with it.

use super::super::{bytes, counted, find_in_policy, spaced, Field, Finding};
use crate::policy;
use inputs::PLACED;
use std::ops::Range;

/// A policy file, with its physical address where it stands in memory.
struct File<'a> {
    bytes: &'a [u8],
    base: Option<u64>,
}

/// The number of so many bytes at an offset, where they are there.
fn number(bytes: &[u8], at: u64, width: usize) -> Option<u64> {
    let at = usize::try_from(at).ok()?;
    let field = bytes.get(at..at.checked_add(width)?)?;
    Some(field.iter().rev().fold(0, |value, byte| value << 8 | u64::from(*byte)))
}

/// What is read on the way to the place; at the place what is said of the field there, and nothing where the walk cannot go on.
type Way<T> = Result<T, Option<Finding>>;

/// What is expected of a number, and what is found; nothing where any will do.
type Words = Option<(String, String)>;

/// What a field must fit into.
struct Holder {
    name: String,
    end: usize,
}

impl Holder {
    fn left(&self, at: usize) -> String {
        bytes(self.end.saturating_sub(at) as u64)
    }
}

/// A number that is shown in hexadecimal.
fn one_of(expected: &str, found: usize) -> Words {
    Some((expected.to_string(), format!("{found:#06x}")))
}

fn any(_: usize) -> Words {
    None
}

struct Walk<'a> {
    file: &'a File<'a>,
    place: usize,
}

impl Walk<'_> {
    /// What is said of the field of these bytes.
    fn finding(&self, range: Range<usize>, name: &str, (expected, found): (String, String)) -> Finding {
        let at = range.start;
        let place = match self.file.base {
            None => format!("{name} (file offset {at}, {at:#x})"),
            Some(base) => {
                let address = u128::from(base) + at as u128;
                format!("{name} (policy file offset {at}, {at:#x}, physical {address:#x})")
            }
        };
        let field = Field { name: name.to_string(), bytes: at as u32..range.end as u32 };
        Finding { number: PLACED, place, expected, found, notes: Vec::new(), field: Some(field) }
    }

    /// Bytes that are always the same, and end before the lists.
    fn fixed(&self, at: usize, value: &[u8], name: &str) -> Way<()> {
        if at != self.place {
            return Ok(());
        }
        let field = at..at + value.len();
        let found = self.file.bytes.get(field.clone()).ok_or(None)?;
        let differs = at + found.iter().zip(value).position(|(found, byte)| found != byte).ok_or(None)?;
        let found = format!("{}, which differs first at offset {differs} ({differs:#x})", spaced(found));
        Err(Some(self.finding(field, name, (spaced(value), found))))
    }

    /// The number of a field.
    fn number(&self, at: usize, width: usize, holder: &Holder, name: &str, words: impl Fn(usize) -> Words) -> Way<usize> {
        let end = at + width;
        let value = number(self.file.bytes, at as u64, width).filter(|_| end <= holder.end).map(|value| value as usize);
        if at != self.place {
            return value.ok_or(None);
        }
        let missing = || Some((format!("{} inside {}", bytes(width as u64), holder.name), format!("{} left", holder.left(at))));
        let words = value.map_or_else(missing, words).ok_or(None)?;
        Err(Some(self.finding(at..end.min(holder.end), name, words)))
    }

    /// Where the last field of a part ends, which is where the part should end.
    fn end(&self, at: usize, holder: &Holder, last: &str, why: &str) -> Way<()> {
        if at != self.place || at >= holder.end {
            return Ok(());
        }
        let words = (format!("the end of {}{why}", holder.name), format!("{} more", holder.left(at)));
        Err(Some(self.finding(at..holder.end, &format!("what follows {last}"), words)))
    }

    fn whole(&self) -> Way<()> {
        let file = self.holder("the file");
        let mark = [policy::MARK.as_bytes(), &[0; 4]].concat();
        self.fixed(0, &mark, &format!("the mark, `{}` and 4 zeros", policy::MARK))?;
        self.fixed(mark.len(), &[0; 3], "the 3 zeros before the list count")?;
        let counts = |count: usize| Some((format!("1 to {}", policy::MOST_LISTS), count.to_string()));
        let count = self.number(policy::FIRST_LIST - 1, 1, &file, "the list count", counts)?;
        let counted = self.holder(&format!("the file, whose list count is {count}"));
        let at = (0..count).try_fold(policy::FIRST_LIST, |at, index| self.list(at, index, &counted))?;
        self.end(at, &file, "the last list", "")
    }

    fn holder(&self, name: &str) -> Holder {
        Holder { name: name.to_string(), end: self.file.bytes.len() }
    }

    /// Where the list at an offset ends.
    fn list(&self, at: usize, index: usize, counted: &Holder) -> Way<usize> {
        let file = self.holder("the file");
        let name = |field: &str| format!("{field} of list {index}");
        self.number(at, 2, counted, &name("the version"), |version| one_of("0x0200 or 0x0201", version))?;
        let known = |algorithm| one_of("0x0010 (none) or 0x0014 (RSASSA)", algorithm);
        let algorithm = self.number(at + 2, 2, &file, &name("the signature algorithm"), known)?;
        let elements = at + 8;
        let left = file.end.saturating_sub(elements);
        let fit = |size: usize| Some((format!("at most {left}, the bytes left in the file"), size.to_string()));
        let end = elements + self.number(at + 4, 4, &file, &name("the elements size"), fit)?;
        self.elements(elements, index, &Holder { name: "the list's elements".to_string(), end })?;
        if algorithm == 0x0014 {
            return self.signed(end, &name, &file);
        }
        Ok(end)
    }

    /// Where the signature of a list ends whose elements end at an offset.
    fn signed(&self, at: usize, name: &dyn Fn(&str) -> String, file: &Holder) -> Way<usize> {
        self.number(at, 2, file, &name("the counter"), any)?;
        let key = at + 4;
        let fit = |size: usize| match size {
            256 | 384 => Some((
                format!("a key and a signature of {size} bytes each inside the file"),
                format!("{size}, and {} left for both", file.left(key)),
            )),
            _ => Some(("256 or 384".to_string(), size.to_string())),
        };
        let size = self.number(at + 2, 2, file, &name("the key size"), fit)?;
        Ok(key + 2 * size)
    }

    fn elements(&self, begin: usize, list: usize, holder: &Holder) -> Way<()> {
        let mut at = begin;
        for index in 0.. {
            if at >= holder.end {
                break;
            }
            at = self.element(at, holder, &|field: &str| format!("{field} of element {index} of list {list}"))?;
        }
        Ok(())
    }

    /// Where the element at an offset ends.
    fn element(&self, at: usize, holder: &Holder, name: &dyn Fn(&str) -> String) -> Way<usize> {
        let left = holder.end - at;
        if left < 12 && at == self.place {
            let words = (
                "an element of at least 12 bytes, or no bytes".to_string(),
                format!("{} left in {}", bytes(left as u64), holder.name),
            );
            return Err(Some(self.finding(at..holder.end, &name("the size"), words)));
        }
        let fit = |size: usize| match size {
            0..=11 => Some(("at least 12, since the size counts size, type and control".to_string(), size.to_string())),
            _ => Some((format!("at most {left}, the bytes left in {}", holder.name), size.to_string())),
        };
        let size = self.number(at, 4, holder, &name("the size"), fit)?;
        // Before the place no size is below 12; were one, the walk would still go on and end.
        let element = Holder { name: format!("the element of {size} bytes"), end: at + size.max(12) };
        let kind = self.number(at + 4, 4, holder, &name("the type"), any)?;
        let body = at + 12;
        if kind == policy::LAUNCH as usize {
            self.number(body, 1, &element, &name("SINITMinVersion"), any)?;
            self.number(body + 1, 1, &element, &name("the reserved byte"), any)?;
            self.digests(body + 2, &element, name)?;
        }
        if kind == policy::STM as usize {
            self.digests(body, &element, name)?;
        }
        Ok(element.end)
    }

    /// The algorithm, the count and the digests that stand at an offset and fill the element up to its end.
    fn digests(&self, at: usize, element: &Holder, name: &dyn Fn(&str) -> String) -> Way<()> {
        let known = |hash_alg| one_of("0x0004, 0x000b, 0x000c, 0x000d or 0x0012", hash_alg);
        let hash_alg = self.number(at, 2, element, &name("HashAlg"), known)?;
        let (length, _) = policy::algorithm(hash_alg as u16).ok_or(None)?;
        let first = at + 4;
        let fit = |count: usize| {
            let most = element.end.saturating_sub(first) / length;
            Some((
                format!("at most {most}, with {} left in {} for digests of {length} bytes", element.left(first), element.name),
                count.to_string(),
            ))
        };
        let count = self.number(at + 2, 2, element, &name("the digest count"), fit)?;
        let why = format!(", after {} of {length} bytes", counted(count as u64, "digest"));
        self.end(first + count * length, element, &name("the digests"), &why)
    }
}

/// The places at which the walk has a field to name, up to a limit.
fn named(bytes: &[u8], limit: usize) -> Vec<usize> {
    let file = File { bytes, base: None };
    let at = |place: &usize| Walk { file: &file, place: *place }.whole().err().flatten().is_some();
    (0..limit).filter(at).collect()
}

/// What stands before the lists, with a list count.
fn head(count: u8) -> Vec<u8> {
    [policy::MARK.as_bytes(), &[0; 7], &[count]].concat()
}

#[test]
fn no_field_is_named_but_where_one_begins() {
    let signed = [0x01, 0x02, 0x14, 0, 12, 0, 0, 0, 12, 0, 0, 0, 3, 0, 0, 0, 0, 0, 0, 0, 5, 0, 0, 1];
    let file = [&head(1)[..], &signed, &[0; 513]].concat();
    assert_eq!(named(&file, 1000), [35, 36, 38, 40, 44, 58, 572]);
}

/// Whatever the reader said and the bytes are, the walk ends.
#[test]
fn every_walk_ends() {
    for byte in [0, 1, 2, 0x0c, 0x10, 0x14, 0xff] {
        for count in [0, 1, 8, 255] {
            let file = [&head(count)[..], &[byte; 200]].concat();
            assert!(named(&file, 300).contains(&35), "{byte:#x}, {count}");
        }
    }
}

/// A list of one launch element with one digest, and one that is signed, whose key and signature are zeros.
fn two_lists() -> Vec<u8> {
    let mut file = head(2);
    file.extend([0x01, 0x02, 0x10, 0, 50, 0, 0, 0, 50, 0, 0, 0, 0x10, 0, 0, 0, 0, 0, 0, 0, 0, 0, 0x0b, 0, 1, 0]);
    file.extend([0; 32]);
    file.extend([0x00, 0x02, 0x14, 0, 12, 0, 0, 0, 12, 0, 0, 0, 3, 0, 0, 0, 0, 0, 0, 0, 5, 0, 0, 1]);
    file.extend([0; 512]);
    file
}

/// Each byte of the head and of what stands before the digests, key and signature set to several values, and the file cut at each length: where the
/// reader refuses it with 27, the finding names the field that the walk comes to at the proved place, in the same words.
#[test]
fn the_finding_names_the_field_at_the_place() {
    let sound = two_lists();
    assert!(policy::read(&sound).is_ok());
    let mut files: Vec<Vec<u8>> = (36..sound.len()).map(|length| sound[..length].to_vec()).collect();
    files.push([&sound[..], &[0; 3]].concat());
    for at in 0..150 {
        for value in [0u8, 1, 2, 9, 0x0b, 0x0c, 0x10, 0x13, 0x80, 0xff] {
            let mut file = sound.clone();
            file[at] = value;
            files.push(file);
        }
    }
    let mut compared = 0;
    for bytes in &files {
        let Err(refusal) = policy::read(bytes) else { continue };
        if refusal.number != PLACED {
            continue;
        }
        let file = File { bytes, base: None };
        let walked = Walk { file: &file, place: refusal.place as usize }.whole().err().flatten();
        let said = find_in_policy(refusal, bytes);
        assert!(said.is_some(), "{bytes:?}");
        assert_eq!(format!("{said:?}"), format!("{walked:?}"));
        compared += 1;
    }
    assert!(compared > 1000, "{compared}");
}
