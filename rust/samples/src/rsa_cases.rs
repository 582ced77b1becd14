//! The table of cases for the RSA verification, which `tests/rsa_cases.py` at the repository's top writes: it works out by RFC 8017 and with
//! Python's own arithmetic which signatures verify.

use super::top;

/// A key, a signature and a message.
pub struct RsaCase {
    /// The key size, the kind of the case, and what is special about it.
    pub name: String,
    pub key: Vec<u8>,
    pub signature: Vec<u8>,
    pub message: Vec<u8>,
    /// Whether the signature verifies.
    pub verifies: bool,
}

fn bytes(digits: &str) -> Vec<u8> {
    assert_eq!(digits.len() % 2, 0, "two digits for each byte");
    let byte = |at: usize| u8::from_str_radix(&digits[at..at + 2], 16).expect("hexadecimal digits");
    (0..digits.len()).step_by(2).map(byte).collect()
}

fn case(line: &str) -> RsaCase {
    match line.split('\t').collect::<Vec<&str>>()[..] {
        [name, key, signature, message, verifies @ ("yes" | "no")] => RsaCase {
            name: name.to_string(),
            key: bytes(key),
            signature: bytes(signature),
            message: bytes(message),
            verifies: verifies == "yes",
        },
        _ => panic!("not a name, a key, a signature, a message, and yes or no: {line}"),
    }
}

/// All cases of the table.
pub fn rsa_cases() -> Vec<RsaCase> {
    let path = top().join("rust/bleiwurzel/tests/data/rsa/cases.tsv");
    std::fs::read_to_string(path).expect("the table of cases").lines().map(case).collect()
}
