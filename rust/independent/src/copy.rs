//! The support copy, the comparison of summaries and the label for display.

use crate::read::read_by;
use crate::section::{Part, Summary, PROPERTIES_FIXED, SECURITY_FIXED};
use crate::steps::{SectionStep, LENGTHS, READING};
use crate::{read, Refusal};

/// Writes the section with every private bit zero to the start of `out` and gives its length.
/// "Refused as reading is, then 13"; a refusal writes nothing.
pub fn support_copy(input: &[u8], security_first: bool, out: &mut [u8]) -> Result<usize, Refusal> {
    support_copy_by(&READING, input, security_first, out)
}

/// [`support_copy`] by the steps of `order`.
#[inline(always)]
pub(crate) fn support_copy_by(
    order: &[SectionStep],
    input: &[u8],
    security_first: bool,
    out: &mut [u8],
) -> Result<usize, Refusal> {
    let section = read_by(order, input, security_first, out.len())?;
    let Summary { security, parts, length, .. } = section.summary;
    let copy = &mut out[..length];
    copy.fill(0);
    let mut keep = |part: Part| {
        let range = part.start..part.start + part.length;
        copy[range.clone()].copy_from_slice(&input[range]);
    };

    if let Some(security) = security {
        keep(Part { start: 0, length: SECURITY_FIXED });
        if security.flags.sender_kind() == 1 {
            keep(Part { start: parts.identity.start, length: 2 });
        }
        keep(parts.provider);
    }
    let at = parts.label.start - PROPERTIES_FIXED;
    keep(Part { start: at, length: 4 });
    keep(Part { start: at + 24, length: 4 });
    keep(Part { start: at + 32, length: 24 });
    keep(parts.label);

    if security.is_some() {
        copy[1] &= 0x0F;
    }
    copy[at] &= 0x0F;
    Ok(length)
}

/// What the support copy of `input` would be if its length alone were judged: the copy of an accepted
/// section, and what a tool that does not judge makes of a refused one. None where the input ends before
/// its sizes do.
pub fn copy_by_sizes(input: &[u8], security_first: bool) -> Option<Vec<u8>> {
    copy_by(&LENGTHS, input, security_first)
}

/// The support copy by the steps of `order` in a vector of its own, where none of them fails.
pub(crate) fn copy_by(order: &[SectionStep], input: &[u8], security_first: bool) -> Option<Vec<u8>> {
    let mut copy = vec![0; input.len()];
    let length = support_copy_by(order, input, security_first, &mut copy).ok()?;
    copy.truncate(length);
    Some(copy)
}

/// Whether both inputs are accepted and their summaries are the same.
pub fn same_summary(a: &[u8], b: &[u8], security_first: bool) -> bool {
    match (read(a, security_first), read(b, security_first)) {
        (Ok(a), Ok(b)) => a.summary == b.summary,
        _ => false,
    }
}

/// The label for display: the section's own part as it lies, or `stand_in` where there is no
/// label or reading is refused.
pub fn label_shown<'a>(input: &'a [u8], security_first: bool, stand_in: &'a [u8]) -> &'a [u8] {
    match read(input, security_first) {
        Ok(section) if section.summary.properties.label_length != 0 => section.summary.properties.label,
        _ => stand_in,
    }
}
