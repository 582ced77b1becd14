//! The bytes of a file around a field, sixteen in a line behind their offset, with marks under those of the field. Where the field has no byte,
//! the mark stands where its first one would be. A long field is cut.

use bleiwurzel::text::{bytes, spaced};
use std::ops::Range;

const LINE: usize = 16;
/// The most lines of a field that are shown.
const MOST: usize = 4;
/// How far the bytes are indented.
const INDENT: usize = 11;

/// The field's lines, the one before and the one after, as far as there are any.
pub fn around(file: &[u8], field: &Range<usize>) -> String {
    let marked = field.start..field.end.max(field.start + 1);
    let (first, last) = (marked.start / LINE, (marked.end - 1) / LINE);
    let cut = last >= first + MOST;
    let shown = first.saturating_sub(1)..=if cut { first + MOST - 1 } else { last + 1 };
    let mut out = String::new();
    for line in shown {
        let begin = line * LINE;
        let marks: Vec<bool> = (begin..begin + LINE).map(|at| marked.contains(&at)).collect();
        if begin < file.len() || marks[0] {
            let held = file.get(begin..file.len().min(begin + LINE)).unwrap_or_default();
            out.push_str(format!("  {begin:#07x}  {}", spaced(held)).trim_end());
            out.push('\n');
        }
        if marks.contains(&true) {
            out.push_str(&format!("{}{}\n", carets(&marks), remark(file, field)));
        }
    }
    if cut {
        out.push_str(&format!("  ..       {} in all\n", bytes(field.len() as u64)));
    }
    out
}

/// The line under sixteen bytes.
fn carets(marks: &[bool]) -> String {
    let line: String = marks.iter().map(|marked| if *marked { "^^ " } else { "   " }).collect();
    format!("{}{}", " ".repeat(INDENT), line.trim_end())
}

/// What is said of a field without bytes.
fn remark(file: &[u8], field: &Range<usize>) -> &'static str {
    match field.is_empty() {
        true if field.start == file.len() => " the file ends here",
        true => " no byte of it fits",
        false => "",
    }
}

#[cfg(test)]
mod tests {
    use super::around;

    /// Bytes that say their own offset.
    fn file(length: usize) -> Vec<u8> {
        (0..length).map(|at| at as u8).collect()
    }

    #[test]
    fn a_field_with_a_line_before_and_after() {
        assert_eq!(
            around(&file(50), &(18..20)),
            "  0x00000  00 01 02 03 04 05 06 07 08 09 0a 0b 0c 0d 0e 0f\n  \
               0x00010  10 11 12 13 14 15 16 17 18 19 1a 1b 1c 1d 1e 1f\n                 \
                              ^^ ^^\n  \
               0x00020  20 21 22 23 24 25 26 27 28 29 2a 2b 2c 2d 2e 2f\n"
        );
    }

    #[test]
    fn a_field_at_the_start_and_over_two_lines() {
        assert_eq!(
            around(&file(19), &(0..17)),
            "  0x00000  00 01 02 03 04 05 06 07 08 09 0a 0b 0c 0d 0e 0f\n           \
                        ^^ ^^ ^^ ^^ ^^ ^^ ^^ ^^ ^^ ^^ ^^ ^^ ^^ ^^ ^^ ^^\n  \
               0x00010  10 11 12\n           \
                        ^^\n"
        );
    }

    #[test]
    fn no_byte_at_the_end_of_the_file() {
        assert_eq!(around(&file(18), &(18..18)).lines().last(), Some("                 ^^ the file ends here"));
        let whole_line = around(&file(16), &(16..16));
        assert!(whole_line.ends_with("0f\n  0x00010\n           ^^ the file ends here\n"), "{whole_line}");
    }

    #[test]
    fn no_byte_before_the_end_of_the_file() {
        let shown = around(&file(32), &(31..31));
        assert!(
            shown.ends_with(" 1f\n                                                        ^^ no byte of it fits\n"),
            "{shown}"
        );
        assert!(shown.lines().all(|line| line.len() <= 80), "{shown}");
    }

    #[test]
    fn a_long_field_is_cut() {
        let (whole, cut) = (around(&file(80), &(16..80)), around(&file(81), &(16..81)));
        assert_eq!((whole.lines().count(), whole.matches("^^").count(), whole.contains("in all")), (9, 64, false), "{whole}");
        assert_eq!((cut.lines().count(), cut.matches("^^").count()), (10, 64), "{cut}");
        assert!(cut.ends_with("\n  ..       65 bytes in all\n"), "{cut}");
    }
}
