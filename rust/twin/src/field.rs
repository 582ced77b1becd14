//! The little-endian numbers of fields. Those of a structure whose length was tested are read by index; a field that may lie outside is asked for
//! with `_in`, which gives none then.

fn array<const N: usize>(bytes: &[u8], at: usize) -> [u8; N] {
    let mut array = [0; N];
    array.copy_from_slice(&bytes[at..at + N]);
    array
}

fn array_in<const N: usize>(bytes: &[u8], at: usize) -> Option<[u8; N]> {
    bytes.get(at..at.checked_add(N)?)?.try_into().ok()
}

pub fn u16_at(bytes: &[u8], at: usize) -> u16 {
    u16::from_le_bytes(array(bytes, at))
}

pub fn u32_at(bytes: &[u8], at: usize) -> u32 {
    u32::from_le_bytes(array(bytes, at))
}

pub fn u64_at(bytes: &[u8], at: usize) -> u64 {
    u64::from_le_bytes(array(bytes, at))
}

pub fn u16_in(bytes: &[u8], at: usize) -> Option<u16> {
    array_in(bytes, at).map(u16::from_le_bytes)
}

pub fn u32_in(bytes: &[u8], at: usize) -> Option<u32> {
    array_in(bytes, at).map(u32::from_le_bytes)
}

pub fn u64_in(bytes: &[u8], at: usize) -> Option<u64> {
    array_in(bytes, at).map(u64::from_le_bytes)
}

/// The part of so many bytes at an offset, where it fits. Offsets and sizes of fields may be too large for a `usize`.
pub fn part(bytes: &[u8], at: u64, size: u64) -> Option<&[u8]> {
    let (at, size) = (usize::try_from(at).ok()?, usize::try_from(size).ok()?);
    bytes.get(at..at.checked_add(size)?)
}
