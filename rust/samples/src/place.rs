//! The place of a 27, worked out once more in plain Rust and by itself: the first field, in file order, whose rule fails or that does not fit. A
//! size or a count of digests that reaches past what holds it is its own fault, the key size answers for key and signature, and bytes behind the
//! last field of a part are named by the first of them.

/// An offset where all is well up to there, or the place of the fault.
type Checked<T> = Result<T, usize>;

/// The place of the first fault of a string of 36 to 65,536 bytes; none in a policy file.
pub fn place(file: &[u8]) -> Option<u32> {
    whole(file).err().map(|at| at as u32)
}

fn need(holds: bool, at: usize) -> Checked<()> {
    if holds {
        return Ok(());
    }
    Err(at)
}

/// The number of a field that must fit into what holds it, which is given up to its end.
fn field(holder: &[u8], at: usize, width: usize) -> Checked<usize> {
    let field = holder.get(at..at + width).ok_or(at)?;
    Ok(field.iter().rev().fold(0, |number, byte| number << 8 | usize::from(*byte)))
}

fn whole(file: &[u8]) -> Checked<()> {
    need(file.starts_with(b"Intel(R) TXT LCP_POLICY_DATA\0\0\0\0"), 0)?;
    need(file[32..35] == [0; 3], 32)?;
    let count = field(file, 35, 1)?;
    need((1..=8).contains(&count), 35)?;
    let mut at = 36;
    for _ in 0..count {
        at = list(file, at)?;
    }
    need(at == file.len(), at)
}

/// Where a list ends.
fn list(file: &[u8], at: usize) -> Checked<usize> {
    need([0x0200, 0x0201].contains(&field(file, at, 2)?), at)?;
    let algorithm = field(file, at + 2, 2)?;
    need([0x0010, 0x0014].contains(&algorithm), at + 2)?;
    let mut next = at + 8;
    let end = next + field(file, at + 4, 4)?;
    need(end <= file.len(), at + 4)?;
    while next < end {
        next = element(&file[..end], next)?;
    }
    if algorithm == 0x0010 {
        return Ok(end);
    }
    field(file, end, 2)?;
    let key = field(file, end + 2, 2)?;
    let signature_end = end + 4 + 2 * key;
    need([256, 384].contains(&key) && signature_end <= file.len(), end + 2)?;
    Ok(signature_end)
}

/// Where an element ends.
fn element(elements: &[u8], at: usize) -> Checked<usize> {
    need(elements.len() - at >= 12, at)?;
    let end = at + field(elements, at, 4)?;
    need((at + 12..=elements.len()).contains(&end), at)?;
    let element = &elements[..end];
    match field(element, at + 4, 4)? {
        0x10 => {
            field(element, at + 12, 1)?;
            field(element, at + 13, 1)?;
            digests(element, at + 14)?;
        }
        0x14 => digests(element, at + 12)?,
        _ => (),
    }
    Ok(end)
}

/// HashAlg, count and digests, with which an element ends.
fn digests(element: &[u8], at: usize) -> Checked<()> {
    let length = match field(element, at, 2)? {
        0x0004 => 20,
        0x000b | 0x0012 => 32,
        0x000c => 48,
        0x000d => 64,
        _ => return Err(at),
    };
    let end = at + 4 + field(element, at + 2, 2)? * length;
    need(end <= element.len(), at + 2)?;
    need(end == element.len(), end)
}
