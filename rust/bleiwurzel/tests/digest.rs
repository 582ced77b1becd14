//! The library's SHA-256 and a plain one in Rust agree.

#[test]
fn every_length_up_to_a_few_blocks() {
    for length in 0..=500 {
        let message: Vec<u8> = (0..length).map(|i| (i * 31 + i / 7) as u8).collect();
        assert_eq!(bleiwurzel::sha256(&message), plain_sha256::digest_in_parts(&message, 0), "length {length}");
    }
}
