//! What is said of rules 23 to 25: the policy record, and the module that it does not allow.

use super::{module, words, Asked, Finding, Length, Words};
use crate::policy::{SHA256, SHA256_PERMITTED};
use crate::RECORD_LENGTH;
use twin::module::Header;
use twin::record::{Fault, Record, RecordFields, ANY, DEBUG_SIGNED, LIST, MAJOR, PRE_PRODUCTION};
use twin::{Place, Stop};

pub fn said(fault: Fault, asked: &Asked) -> Option<Words> {
    let record = asked.parts.record;
    match fault {
        Fault::NotForProduction => of_flags(&fields(record)?, asked),
        Fault::AcmVersion => {
            let ((table, information), least) = (module::information(asked.parts.sinit)?, fields(record)?.sinit_min_version);
            let expected = format!("at least {least}, which is SINITMinVersion (record offset 5)");
            Some(words(module::in_table(table, "AcmVersion", 36), expected, information.acm_version.to_string()))
        }
        _ => of_field(fault, record, &asked.lengths.record),
    }
}

/// What is said where the record by itself is wrong.
pub fn rule_23(stop: Stop, record: &[u8], length: &Length) -> Option<Finding> {
    match stop.place {
        Place::Record(fault) => Some(of_field(fault, record, length)?.of(stop)),
        _ => None,
    }
}

fn fields(record: &[u8]) -> Option<RecordFields> {
    Record::of(record).map(|record| record.fields)
}

fn of_field(fault: Fault, record: &[u8], length: &Length) -> Option<Words> {
    if fault == Fault::Length {
        let expected = format!("exactly {RECORD_LENGTH} bytes");
        return Some(words("length of the policy record", expected, length.to_string()));
    }
    let record = fields(record)?;
    Some(match fault {
        Fault::Version => {
            let expected = format!("high byte {MAJOR}, as 0x0302");
            words("version, record offset 0", expected, format!("{:#06x}", record.version))
        }
        Fault::HashAlg => {
            words("HashAlg, record offset 2", format!("{SHA256:#06x} (SHA256)"), format!("{:#06x}", record.hash_alg))
        }
        Fault::Type => words("type, record offset 4", format!("{LIST} (LIST) or {ANY} (ANY)"), record.policy_type.to_string()),
        _ => {
            let expected = format!("the bit {SHA256_PERMITTED:#06x} (SHA-256) set");
            words("LcpHashAlgMask, record offset 28", expected, format!("{:#06x}", record.lcp_hash_alg_mask))
        }
    })
}

fn of_flags(record: &RecordFields, asked: &Asked) -> Option<Words> {
    let flags = Header::read(asked.parts.sinit)?.flags;
    let names = [(PRE_PRODUCTION, "bit 14 (pre-production)"), (DEBUG_SIGNED, "bit 15 (debug-signed)")];
    let set: Vec<&str> = names.iter().filter(|(mask, _)| flags & mask != 0).map(|(_, name)| *name).collect();
    Some(words(
        "flags in the module's header (module offset 0xe)",
        format!("bits 14 and 15 clear, or bit 1 of control (record offset 22), which is {:#010x}, set", record.control),
        format!("{flags:#06x}, with {} set", set.join(" and ")),
    ))
}
