//! A policy file and a record in the text form.

use super::keys::*;
use super::words::algorithm_name;
use bleiwurzel::policy::{self, Body, Element, RecordFields};
use bleiwurzel::text::digits;

/// The line of a record.
pub fn record_text(fields: &RecordFields) -> String {
    let policy_type = match fields.policy_type {
        0 => "list".to_string(),
        1 => "any".to_string(),
        other => other.to_string(),
    };
    let counters = fields.counters.map(|counter| counter.to_string()).join(",");
    let algorithm = algorithm_name(fields.hash_alg);
    let first = format!(
        "{} {VERSION}={:#06x} {HASH_ALG}={algorithm} {TYPE}={policy_type} {SINIT_MIN_VERSION}={} {COUNTERS}={counters} {CONTROL}={:#010x}\n",
        RECORD.0, fields.version, fields.sinit_min_version, fields.control
    );
    let second = format!(
        "{} {MAX_SINIT_MIN_VERSION}={} {RESERVED}={} {LCP_HASH_ALG_MASK}={:#06x} {LCP_SIGN_ALG_MASK}={:#010x} {RESERVED2}={:#010x}\n",
        RECORD.0,
        fields.max_sinit_min_version,
        fields.reserved,
        fields.lcp_hash_alg_mask,
        fields.lcp_sign_alg_mask,
        fields.reserved2
    );
    first + &second
}

/// The lines of all lists of a policy file, whose lists are unsigned and hold no other elements than these lines can say.
pub fn lists_text(file: &[u8]) -> String {
    let mut text = String::new();
    for (list, elements) in policy::lists(file) {
        text.push_str(&format!("{} {VERSION}={:#06x}\n", LIST.0, list.version));
        elements.iter().for_each(|element| text.push_str(&element_text(file, element)));
    }
    text
}

fn element_text(file: &[u8], element: &Element) -> String {
    let control = element.control;
    let launch = match &element.body {
        Body::Launch(launch) => launch,
        _ => {
            let body = digits(&file[element.bytes.start + policy::ELEMENT_HEAD..element.bytes.end]);
            return format!("{} {CONTROL}={control:#010x} {BODY}={body}\n", CUSTOM.0);
        }
    };
    let mut text = format!(
        "{} {CONTROL}={control:#010x} {SINIT_MIN_VERSION}={} {RESERVED}={} {HASH_ALG}={}",
        LAUNCH.0,
        launch.sinit_min_version,
        launch.reserved,
        algorithm_name(launch.digests.hash_alg)
    );
    let digests = (0..).map_while(|k| policy::digest(element, k));
    digests.for_each(|range| text.push_str(&format!(" {DIGEST}={}", digits(&file[range]))));
    text.push('\n');
    text
}
