//! What is written where the two differ: the source, the damages and both answers, and the inputs in a file. A capture is saved as it is; parts in the
//! form of the cases with STM images, which `samples::split_lent` reads.

use crate::subject::{Change, Form, Subject, CAPTURE};
use inputs::{Platform, MOST_RESERVED};
use std::path::Path;

/// The damages, a line for each.
pub fn damages(subject: &Subject) -> String {
    let lines = subject.changes.iter().map(|change| format!("  {}\n", line(subject, change)));
    let lines: String = lines.collect();
    if lines.is_empty() {
        return "  none\n".to_string();
    }
    lines
}

fn line(subject: &Subject, change: &Change) -> String {
    match change {
        Change::Bytes { part, at, old } => {
            let name = subject.part_name(*part);
            let now = subject.bytes[*part].get(*at..at + old.len()).map_or("cut off".to_string(), digits);
            format!("{name}, {} bytes from {at:#x} on: were {}, are {now} now", old.len(), digits(old))
        }
        Change::Cut { part, old } => format!("{}: {} bytes cut off", subject.part_name(*part), old.len()),
        Change::Added { part, count } => format!("{}: {count} bytes added", subject.part_name(*part)),
        Change::Part { part, from, .. } => format!("{}: that of '{from}'", subject.part_name(*part)),
        Change::Platform(old) => format!("platform: was {old:x?}\n  now is {:x?}", subject.platform),
    }
}

/// The first bytes, in hexadecimal.
fn digits(bytes: &[u8]) -> String {
    let shown: Vec<String> = bytes.iter().take(32).map(|byte| format!("{byte:02x}")).collect();
    shown.concat()
}

/// Writes the inputs to a file.
pub fn save(subject: &Subject, path: &Path) -> std::io::Result<()> {
    if let Some(folder) = path.parent() {
        std::fs::create_dir_all(folder)?;
    }
    match subject.form {
        Form::Capture => std::fs::write(path, &subject.bytes[CAPTURE]),
        Form::Parts => std::fs::write(path, case(subject)),
    }
}

fn case(subject: &Subject) -> Vec<u8> {
    let mut case = b"LPX".to_vec();
    case.extend((subject.places as u32).to_le_bytes());
    case.extend(platform(&subject.platform));
    subject.bytes.iter().for_each(|part| case.extend((part.len() as u32).to_le_bytes()));
    subject.bytes.iter().for_each(|part| case.extend(part));
    case
}

fn platform(platform: &Platform) -> Vec<u8> {
    let Platform { window_base, heap_base, sinit_base, dpr_base, dpr_size, acram_capacity, .. } = *platform;
    let ranges = platform.reserved.as_slice();
    let mut numbers = [[0; 2]; MOST_RESERVED];
    numbers.iter_mut().zip(ranges).for_each(|(pair, range)| *pair = [range.base, range.size]);
    let wide = [window_base, heap_base, sinit_base, dpr_base, dpr_size, acram_capacity];
    let short = [platform.vendor, platform.device, platform.revision, ranges.len() as u16];
    let pairs = numbers.iter().flatten().flat_map(|number| number.to_le_bytes());
    let front = wide.iter().flat_map(|number| number.to_le_bytes());
    front.chain(short.iter().flat_map(|number| number.to_le_bytes())).chain(pairs).collect()
}

#[cfg(test)]
mod tests {
    use super::*;
    use crate::subject::Turns;
    use samples::{lent_cases, split_lent};

    /// What is saved of a case is the case again.
    #[test]
    fn a_saved_case_is_read_again() {
        for (name, stored) in lent_cases() {
            let (parts, platform, places) = split_lent(&stored);
            let subject = Subject::of_parts(name.clone(), &parts, &platform, places, Turns { times: 1, every: 1 });
            assert!(case(&subject) == stored, "{name}");
        }
    }
}
