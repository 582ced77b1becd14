//! RSASSA-PKCS1-v1_5 verification of RFC 8017 with SHA-256 and the exponent 65,537, for keys of 256 and 384 bytes. The message is encoded and
//! compared with what the signature gives. Numbers are arrays of 64-bit words, the lowest first, whose count is settled when the program is compiled.

mod montgomery;

use crate::field::u64_at;
use crate::sha256;
use montgomery::{below, Modulus};

const KEY_2048: usize = 256;
const KEY_3072: usize = 384;

/// What stands before the digest in the encoding: the algorithm, SHA-256 without parameters but NULL, and the digest's length.
const DIGEST_INFO: [u8; 19] =
    [0x30, 0x31, 0x30, 0x0d, 0x06, 0x09, 0x60, 0x86, 0x48, 0x01, 0x65, 0x03, 0x04, 0x02, 0x01, 0x05, 0x00, 0x04, 0x20];

/// Whether the signature of a message verifies. The key is its modulus, of 256 or 384 bytes, and the signature has as many; with other lengths none
/// verifies. In both the lowest byte comes first, as in a policy file.
pub fn verify(key: &[u8], signature: &[u8], message: &[u8]) -> bool {
    match (key.len(), signature.len()) {
        (KEY_2048, KEY_2048) => verified::<{ KEY_2048 / 8 }>(key, signature, message),
        (KEY_3072, KEY_3072) => verified::<{ KEY_3072 / 8 }>(key, signature, message),
        _ => false,
    }
}

fn verified<const WORDS: usize>(key: &[u8], signature: &[u8], message: &[u8]) -> bool {
    let (modulus, signature) = (words::<WORDS>(key), words::<WORDS>(signature));
    if modulus[0] % 2 == 0 || !below(&signature, &modulus) {
        return false;
    }
    let encoded = encoded::<WORDS>(message);
    // No remainder is the encoding where that is not below the modulus. So the modulus is large, too, as `Modulus` asks.
    below(&encoded, &modulus) && Modulus::new(modulus).power_65537(&signature) == encoded
}

/// The number of a string whose lowest byte comes first.
fn words<const WORDS: usize>(bytes: &[u8]) -> [u64; WORDS] {
    std::array::from_fn(|word| u64_at(bytes, 8 * word))
}

/// The encoding of a message, of which the highest byte comes first: 0, 1, bytes of all ones, 0, the algorithm and the digest.
fn encoded<const WORDS: usize>(message: &[u8]) -> [u64; WORDS] {
    let digest = sha256(message);
    let mut string = [0xff; KEY_3072];
    let string = &mut string[..8 * WORDS];
    let tail = string.len() - digest.len() - DIGEST_INFO.len();
    string[..2].copy_from_slice(&[0, 1]);
    string[tail - 1] = 0;
    string[tail..tail + DIGEST_INFO.len()].copy_from_slice(&DIGEST_INFO);
    string[tail + DIGEST_INFO.len()..].copy_from_slice(&digest);
    string.reverse();
    words(string)
}
