//! The bits of an input that its refusal does not depend on (C-24).

use crate::bytes::padded;
use crate::order::Judged;
use crate::read::headers;
use crate::section::{Parts, PROPERTIES_FIXED, SECURITY_FIXED};
use crate::steps::{Headers, SecurityHeader, Test, ENDLESS, READING};

/// The X bits in the byte of Flags that has them.
const X: u8 = 0xF0;
/// Where the SecurityHeader's Flags have them.
const SECURITY_X: usize = 1;

/// The bits in which another input of the same length, read the same way, may differ from `input` without
/// getting another answer than its refusal, as a mask over its bytes: "X bits, CorrelationID and
/// ApplicationTag (of headers whose fixed bytes are there)" and "private bits of an accepted
/// SecurityHeader". The same bits may differ in an accepted input, which stays accepted.
pub fn may_differ(input: &[u8], security_first: bool) -> Vec<u8> {
    let headers = headers(input, security_first, ENDLESS);
    let mut mask = vec![0; input.len()];
    if let Some(security) = &headers.security {
        if input.len() >= SECURITY_FIXED {
            mask[SECURITY_X] = X;
        }
        if security_is_accepted(&headers) {
            free_parts(security, &mut mask);
        }
    }
    // The sizes give the place, whether or not the SecurityHeader that has them is accepted.
    let at = headers.properties.at as usize;
    if let Some(fixed) = mask.get_mut(at..at + PROPERTIES_FIXED) {
        fixed[0] = X;
        fixed[4..24].fill(0xFF); // CorrelationID
        fixed[28..32].fill(0xFF); // ApplicationTag
    }
    mask
}

/// S1 to S11 pass.
fn security_is_accepted(headers: &Headers<'_>) -> bool {
    let mut steps = READING.iter().filter(|step| matches!(step.test, Test::Security { .. }));
    !steps.any(|step| headers.fails(&step.test))
}

/// What is private of the parts of an accepted SecurityHeader, padding included.
fn free_parts(header: &SecurityHeader<'_>, mask: &mut [u8]) {
    let mut parts = Parts::default();
    header.lay_out(&mut parts);
    let sid = if header.flags.sender_kind() == 1 { 2 } else { 0 };
    mask[SECURITY_FIXED + sid..parts.provider.start].fill(0xFF);
    let end = parts.provider.start + parts.provider.length;
    mask[end..padded(end as u64) as usize].fill(0xFF);
}
