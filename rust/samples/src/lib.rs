//! What tests and benchmarks build their inputs of: images that the check permits, policy files, and the stored cases.
#![forbid(unsafe_code)]

mod image;
mod lent;
mod place;
mod policy_file;
mod rsa_cases;
mod signed_list;
mod stored;

pub use image::*;
pub use lent::*;
pub use place::*;
pub use policy_file::*;
pub use rsa_cases::*;
pub use signed_list::*;
pub use stored::*;

/// A value that no page address has, to see which places of a page list are written.
pub const UNTOUCHED: u64 = 0xdead_beef_dead_beef;

/// Writes a little-endian number of `width` bytes.
pub fn put(bytes: &mut [u8], at: usize, number: u64, width: usize) {
    bytes[at..at + width].copy_from_slice(&number.to_le_bytes()[..width]);
}
