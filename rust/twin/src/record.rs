//! Rules 23 to 25: the policy record, and whether the module is one that it allows.

mod fields;

use crate::module::Module;
use crate::policy::{SHA256, SHA256_PERMITTED};
use crate::{need, Place, Stop};
pub use fields::RecordFields;
use inputs::{RECORD_FIELDS, RECORD_LENGTH};

/// The high byte of the version.
pub const MAJOR: u8 = 3;
/// The flags of a module that is not for production: before it, and signed for debugging.
pub const PRE_PRODUCTION: u16 = 1 << 14;
pub const DEBUG_SIGNED: u16 = 1 << 15;
/// The bit of the record's control that allows such modules.
pub const ALLOWS: u32 = 1 << 1;
/// Where the first counter of the record stands, and the bytes of each; the others stand behind it.
const COUNTERS: usize = 6;
const COUNTER_LENGTH: usize = 2;

/// What of the record, or of the module by the record, is wrong.
#[derive(Clone, Copy, Debug, PartialEq, Eq)]
pub enum Fault {
    /// 23.
    Length,
    Version,
    HashAlg,
    Type,
    HashAlgMask,
    /// 24.
    NotForProduction,
    /// 25.
    AcmVersion,
}

impl From<Fault> for Stop {
    fn from(fault: Fault) -> Self {
        let number = match fault {
            Fault::NotForProduction => 24,
            Fault::AcmVersion => 25,
            _ => 23,
        };
        Stop { number, place: Place::Record(fault) }
    }
}

/// What types a policy has.
pub const LIST: u8 = 0;
pub const ANY: u8 = 1;

/// A record of the right length.
#[derive(Clone, Copy, Debug, PartialEq, Eq)]
pub struct Record<'a> {
    pub fields: RecordFields,
    pub policy_hash: &'a [u8],
}

/// The offset of the counter for the list of this number.
pub fn counter_at(list: usize) -> usize {
    COUNTERS + COUNTER_LENGTH * list
}

impl<'a> Record<'a> {
    /// The record of these bytes, where there are as many as it has. No field is judged.
    pub fn of(bytes: &'a [u8]) -> Option<Self> {
        let bytes: &[u8; RECORD_LENGTH] = bytes.try_into().ok()?;
        let (fields, policy_hash) = bytes.split_at(RECORD_FIELDS);
        Some(Record { fields: RecordFields::of(fields.try_into().ok()?), policy_hash })
    }

    pub fn any(&self) -> bool {
        self.fields.policy_type == ANY
    }
}

/// Rule 23, its fields in the order of their offsets.
pub fn read(record: &[u8]) -> Result<Record<'_>, Stop> {
    let record = Record::of(record).ok_or(Fault::Length)?;
    let fields = &record.fields;
    need(fields.version.to_le_bytes()[1] == MAJOR, Fault::Version)?;
    need(fields.hash_alg == SHA256, Fault::HashAlg)?;
    need([LIST, ANY].contains(&fields.policy_type), Fault::Type)?;
    need(fields.lcp_hash_alg_mask & SHA256_PERMITTED != 0, Fault::HashAlgMask)?;
    Ok(record)
}

/// Rules 24 and 25.
pub fn allows(record: &Record, module: &Module) -> Result<(), Stop> {
    let production = module.flags & (PRE_PRODUCTION | DEBUG_SIGNED) == 0;
    need(production || record.fields.control & ALLOWS != 0, Fault::NotForProduction)?;
    Ok(need(module.acm_version >= record.fields.sinit_min_version, Fault::AcmVersion)?)
}
