//! What stands in a policy record before its PolicyHash.

use crate::field::{u16_at, u32_at};
use crate::policy::{MOST_LISTS, SHA256, SHA256_PERMITTED};
use inputs::RECORD_FIELDS;

/// The fields of a policy record (LCP_POLICY2) without its PolicyHash. Rules 23 to 25 and 29 judge some of them. Who writes a policy file chooses
/// them, and is not judged.
#[derive(Clone, Copy, Debug, PartialEq, Eq)]
pub struct RecordFields {
    pub version: u16,
    pub hash_alg: u16,
    /// 0 LIST, 1 ANY.
    pub policy_type: u8,
    pub sinit_min_version: u8,
    /// What a signed list of this number must reach.
    pub counters: [u16; MOST_LISTS as usize],
    pub control: u32,
    pub max_sinit_min_version: u8,
    pub reserved: u8,
    /// The algorithms that the record permits; rule 23 wants [`SHA256_PERMITTED`] among them.
    pub lcp_hash_alg_mask: u16,
    pub lcp_sign_alg_mask: u32,
    pub reserved2: u32,
}

/// What `lcp2_crtpol --create --type list --alg sha256 --polver 3.2 --mask sha256 --sign rsa-2048-sha256` writes. Intel's guide wants both masks
/// to have a bit, though there be no signed list.
impl Default for RecordFields {
    fn default() -> Self {
        RecordFields {
            version: 0x0302,
            hash_alg: SHA256,
            policy_type: 0,
            sinit_min_version: 0,
            counters: [0; MOST_LISTS as usize],
            control: 0,
            max_sinit_min_version: 0xff,
            reserved: 0,
            lcp_hash_alg_mask: SHA256_PERMITTED,
            lcp_sign_alg_mask: 0x0008,
            reserved2: 0,
        }
    }
}

impl RecordFields {
    /// The bytes as they stand in a record.
    pub fn bytes(&self) -> [u8; RECORD_FIELDS] {
        let mut bytes = [0; RECORD_FIELDS];
        bytes[0..2].copy_from_slice(&self.version.to_le_bytes());
        bytes[2..4].copy_from_slice(&self.hash_alg.to_le_bytes());
        bytes[4] = self.policy_type;
        bytes[5] = self.sinit_min_version;
        for (i, counter) in self.counters.iter().enumerate() {
            let at = super::counter_at(i);
            bytes[at..at + 2].copy_from_slice(&counter.to_le_bytes());
        }
        bytes[22..26].copy_from_slice(&self.control.to_le_bytes());
        bytes[26] = self.max_sinit_min_version;
        bytes[27] = self.reserved;
        bytes[28..30].copy_from_slice(&self.lcp_hash_alg_mask.to_le_bytes());
        bytes[30..34].copy_from_slice(&self.lcp_sign_alg_mask.to_le_bytes());
        bytes[34..38].copy_from_slice(&self.reserved2.to_le_bytes());
        bytes
    }

    /// The fields of these bytes.
    pub fn of(bytes: &[u8; RECORD_FIELDS]) -> Self {
        RecordFields {
            version: u16_at(bytes, 0),
            hash_alg: u16_at(bytes, 2),
            policy_type: bytes[4],
            sinit_min_version: bytes[5],
            counters: std::array::from_fn(|list| u16_at(bytes, super::counter_at(list))),
            control: u32_at(bytes, 22),
            max_sinit_min_version: bytes[26],
            reserved: bytes[27],
            lcp_hash_alg_mask: u16_at(bytes, 28),
            lcp_sign_alg_mask: u32_at(bytes, 30),
            reserved2: u32_at(bytes, 34),
        }
    }
}

#[cfg(test)]
mod tests {
    use super::*;

    /// Every byte stands in just one field.
    #[test]
    fn there_and_back() {
        let mut bytes = [0; RECORD_FIELDS];
        (1..).zip(&mut bytes).for_each(|(number, byte)| *byte = number);
        assert_eq!(RecordFields::of(&bytes).bytes(), bytes);
        let fields = RecordFields::default();
        assert_eq!(RecordFields::of(&fields.bytes()), fields);
    }
}
