//! Whether the next Intel TXT launch of a measured host will succeed: the proved check of the static library, for Rust.
//!
//! ```no_run
//! use bleiwurzel::{check, Parts, Platform, MOST_PAGES};
//!
//! let window = std::fs::read("window.bin")?;
//! let heap = std::fs::read("heap.bin")?;
//! let sinit = std::fs::read("sinit.bin")?;
//! let record = std::fs::read("policy.rec")?;
//! let platform = Platform { window_base: 0x100000, heap_base: 0x300000, ..Platform::default() };
//! let mut pages = vec![0; MOST_PAGES];
//! match check(&Parts { window: &window, heap: &heap, sinit: &sinit, record: &record, stm: &[] }, &platform, &mut pages) {
//!     Ok(permission) => println!("permitted: {:x?}", &pages[..permission.pages]),
//!     Err(refusal) => println!("{refusal}"),
//! }
//! # Ok::<(), std::io::Error>(())
//! ```
//!
//! The answer is the proved library's. What else is here only carries it: [`refusals`] has its texts, and [`finding`] says what of the
//! inputs a refusal speaks of.

pub mod capture;
pub mod finding;
pub mod policy;
pub mod text;

pub use inputs::limits::*;
pub use inputs::{refusals, Answer, MemoryRange, Parts, Permission, Platform, Refusal, Reserved, TooMany};

/// The check, with its answer as the library gives it. On a permission the first places of `pages` get the physical addresses of
/// the image's pages in linear order, and the others stay. On a refusal all places stay.
pub fn answer(parts: &Parts, platform: &Platform, pages: &mut [u64]) -> Answer {
    library::check(parts, platform, pages)
}

/// The same, and the digest of the pages where the number is 0 or 29, zeros else: a refusal 29 says that no list permits this digest.
pub fn answer_measured(parts: &Parts, platform: &Platform, pages: &mut [u64]) -> (Answer, [u8; 32]) {
    library::check_measured(parts, platform, pages)
}

/// The check. `pages` is written as [`answer`] says.
pub fn check(parts: &Parts, platform: &Platform, pages: &mut [u64]) -> Result<Permission, Refusal> {
    answer(parts, platform, pages).result()
}

/// The check of a capture file, with its answer as the library gives it; 30 where the bytes are no capture.
pub fn answer_capture(capture: &[u8], pages: &mut [u64]) -> Answer {
    library::check_capture(capture, pages)
}

/// The check of a capture file. `pages` is written as [`answer`] says.
pub fn check_capture(capture: &[u8], pages: &mut [u64]) -> Result<Permission, Refusal> {
    answer_capture(capture, pages).result()
}

/// SHA-256 of a message, by the library.
pub fn sha256(message: &[u8]) -> [u8; 32] {
    library::sha256(message)
}

/// Whether an RSA signature of a message verifies, by the library: RSASSA-PKCS1-v1_5 of RFC 8017 with SHA-256 and the exponent 65,537. The key
/// is its modulus, of 256 or 384 bytes, and the signature has as many; with other lengths none verifies. In both the lowest byte comes first, as
/// in a policy file. [`policy::verifies`] asks it of a list.
pub fn rsa_verify(key: &[u8], signature: &[u8], message: &[u8]) -> bool {
    library::rsa_verify(key, signature, message)
}
