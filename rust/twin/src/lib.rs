//! The whole check once more, in ordinary Rust and without proofs: it takes what the proved library takes, and gives the same answer and page list.
//! One refusal is left out: a count of reserved ranges above 16, which the library answers with 1, cannot be expressed by `inputs::Reserved`.
//! The proved check is timed against it and compared with it, and what is said about a refusal is built on its stages.
//!
//! Each stage tries a group of rules, and gives what later stages need or a [`Stop`]. [`find`] runs those before the digest of the image.

#![forbid(unsafe_code)]

pub mod capture;
mod check;
pub mod field;
pub mod heap;
pub mod image;
pub mod limits;
pub mod lists;
pub mod module;
pub mod policy;
pub mod record;
mod rsa;
mod stop;
pub mod walk;

pub use check::{answer, answer_capture, find, Found};
pub use rsa::verify as rsa_verify;
use stop::need;
pub use stop::{Place, Stop};

/// SHA-256 of a message that is held in one piece.
fn sha256(message: &[u8]) -> [u8; 32] {
    plain_sha256::digest_in_parts(message, 0)
}
