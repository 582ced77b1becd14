//! The words of the text form: what a line begins with, and its keys.

pub const VERSION: &str = "version";
pub const HASH_ALG: &str = "hash-alg";
pub const SINIT_MIN_VERSION: &str = "sinit-min-version";
pub const CONTROL: &str = "control";
pub const RESERVED: &str = "reserved";
pub const DIGEST: &str = "digest";
pub const BODY: &str = "body";
pub const TYPE: &str = "type";
pub const COUNTERS: &str = "counters";
pub const MAX_SINIT_MIN_VERSION: &str = "max-sinit-min-version";
pub const LCP_HASH_ALG_MASK: &str = "lcp-hash-alg-mask";
pub const LCP_SIGN_ALG_MASK: &str = "lcp-sign-alg-mask";
pub const RESERVED2: &str = "reserved2";

/// What a line begins with, and the keys behind it.
pub const RECORD: (&str, &[&str]) = (
    "record",
    &[
        VERSION,
        HASH_ALG,
        TYPE,
        SINIT_MIN_VERSION,
        COUNTERS,
        CONTROL,
        MAX_SINIT_MIN_VERSION,
        RESERVED,
        LCP_HASH_ALG_MASK,
        LCP_SIGN_ALG_MASK,
        RESERVED2,
    ],
);
pub const LIST: (&str, &[&str]) = ("list", &[VERSION]);
pub const LAUNCH: (&str, &[&str]) = ("launch", &[CONTROL, SINIT_MIN_VERSION, RESERVED, HASH_ALG, DIGEST]);
pub const CUSTOM: (&str, &[&str]) = ("custom", &[CONTROL, BODY]);
