//! Pieces of text that the findings and the tool share: counts with their noun, and bytes as hexadecimal digits.

/// A number of things, as `1 byte` or `2 bytes`.
pub fn counted(number: u64, noun: &str) -> String {
    let ending = if number == 1 { "" } else { "s" };
    format!("{number} {noun}{ending}")
}

/// A number of bytes.
pub fn bytes(number: u64) -> String {
    counted(number, "byte")
}

/// The digits of each byte, two for one.
pub fn digits(bytes: &[u8]) -> String {
    bytes.iter().map(|byte| format!("{byte:02x}")).collect()
}

/// The same with a blank between two bytes.
pub fn spaced(bytes: &[u8]) -> String {
    bytes.iter().map(|byte| format!("{byte:02x}")).collect::<Vec<_>>().join(" ")
}
