//! Wrong answers to whether a proposed copy is right.

use crate::copy::copy_by;
use crate::read;
use crate::section::{Part, Parts, Summary, PROPERTIES_FIXED};
use crate::steps::READING;

/// Wrong answers, most of them yes where it has to be no.
#[derive(Debug, Clone, Copy, PartialEq, Eq)]
pub enum WrongYes {
    /// Bytes behind the copy are not looked at.
    Longer,
    /// The copy may end early.
    Shorter,
    /// The copy has to be as long as the input, with zeros behind the section.
    InputLengthAsked,
    /// The copy may be as long as the input, with zeros behind the section.
    InputLength,
    /// The section itself is right too.
    Original,
    /// Every proposal with the same summary is right: private bits are not looked at.
    SameSummary,
    /// X12 to X15 are not looked at.
    SecurityX,
    /// The X bits of the properties Flags are not looked at.
    PropertiesX,
    /// CorrelationID is not looked at.
    CorrelationId,
    /// ApplicationTag is not looked at.
    ApplicationTag,
    /// The padding of the security parts is not looked at.
    PartPadding,
    /// The padding at the section's end is not looked at.
    EndPadding,
    /// The body's last byte is not looked at.
    LastBodyByte,
    /// The first two bytes of an identity have to be zero for ST 1 too.
    IdentityHidden,
    /// The first two bytes of an identity have to be the section's for ST 2 too.
    IdentityKept,
    /// An empty copy is right for a refused section.
    RefusedEmpty,
    /// What a tool that judges lengths alone makes of a refused section is right.
    RefusedBySizes,
    /// This step of reading is left out.
    Without(&'static str),
}

/// The steps whose failure leaves a section that can be copied all the same.
const LEFT_OUT: [&str; 11] = ["S2", "S3", "S4", "S6", "S7", "S10", "S11", "P2", "P3", "P4", "P7"];

impl WrongYes {
    /// All of them.
    pub fn all() -> Vec<Self> {
        let mut all = vec![
            Self::Longer,
            Self::Shorter,
            Self::InputLengthAsked,
            Self::InputLength,
            Self::Original,
            Self::SameSummary,
            Self::SecurityX,
            Self::PropertiesX,
            Self::CorrelationId,
            Self::ApplicationTag,
            Self::PartPadding,
            Self::EndPadding,
            Self::LastBodyByte,
            Self::IdentityHidden,
            Self::IdentityKept,
            Self::RefusedEmpty,
            Self::RefusedBySizes,
        ];
        all.extend(LEFT_OUT.map(Self::Without));
        all
    }

    /// What is said of a copy of a refused section.
    fn of_refused(self, input: &[u8], security_first: bool, copy: &[u8]) -> bool {
        match self {
            Self::RefusedEmpty => copy.is_empty(),
            Self::RefusedBySizes => crate::copy_by_sizes(input, security_first).as_deref() == Some(copy),
            Self::Without(step) => {
                let mut order = READING.to_vec();
                order.retain(|one| one.name != step);
                copy_by(&order, input, security_first).as_deref() == Some(copy)
            }
            _ => false,
        }
    }

    /// What is said of a copy that has another length than the section, which is `right` when copied.
    fn of_length(self, right: &[u8], input: usize, copy: &[u8]) -> bool {
        let followed_by_zeros = copy.starts_with(right) && copy[right.len()..].iter().all(|&byte| byte == 0);
        match self {
            Self::Longer => copy.starts_with(right),
            Self::Shorter => right.starts_with(copy),
            Self::InputLength | Self::InputLengthAsked => copy.len() == input && followed_by_zeros,
            _ => false,
        }
    }

    /// The proposal, which is as long as the section, as it is seen: right where it is not looked at.
    fn seen(self, summary: &Summary<'_>, input: &[u8], copy: &[u8]) -> Vec<u8> {
        let Summary { security, parts, length, .. } = *summary;
        let at = parts.label.start - PROPERTIES_FIXED;
        let body_end = parts.body.start + parts.body.length;
        let kind = security.map(|header| header.flags.sender_kind());
        let mut seen = copy.to_vec();
        match self {
            Self::SecurityX if security.is_some() => seen[1] &= 0x0F,
            Self::PropertiesX => seen[at] &= 0x0F,
            Self::CorrelationId => seen[at + 4..at + 24].fill(0),
            Self::ApplicationTag => seen[at + 28..at + 32].fill(0),
            Self::PartPadding => padding(&parts).for_each(|part| zero(&mut seen, part)),
            Self::EndPadding => seen[body_end..length].fill(0),
            Self::LastBodyByte => seen[body_end - parts.body.length.min(1)..body_end].fill(0),
            Self::IdentityHidden if kind == Some(1) => exchange(&mut seen[16..18], [0, 0], &input[16..18]),
            Self::IdentityKept if kind == Some(2) => exchange(&mut seen[16..18], &input[16..18], [0, 0]),
            _ => {}
        }
        seen
    }
}

/// Takes `one` for `other`, and anything else for neither.
fn exchange(seen: &mut [u8], one: impl AsRef<[u8]>, other: impl AsRef<[u8]>) {
    if seen == one.as_ref() {
        seen.copy_from_slice(other.as_ref());
    } else {
        seen.fill(!other.as_ref()[0]);
    }
}

/// The padding behind each security part.
fn padding(parts: &Parts) -> impl Iterator<Item = Part> {
    let five = [parts.identity, parts.key, parts.signature, parts.certificate, parts.provider];
    five.into_iter().map(|part| Part {
        start: part.start + part.length,
        length: part.length.next_multiple_of(4) - part.length,
    })
}

fn zero(bytes: &mut [u8], part: Part) {
    bytes[part.start..part.start + part.length].fill(0);
}

/// Says wrongly whether a proposed copy is right.
pub fn is_support_copy(wrong: WrongYes, input: &[u8], security_first: bool, copy: &[u8]) -> bool {
    let (Ok(section), Some(right)) = (read(input, security_first), copy_by(&READING, input, security_first))
    else {
        return wrong.of_refused(input, security_first, copy);
    };
    match wrong {
        WrongYes::Original if copy == &input[..right.len()] => true,
        WrongYes::SameSummary => crate::same_summary(input, copy, security_first),
        WrongYes::InputLengthAsked => wrong.of_length(&right, input.len(), copy),
        _ if copy.len() != right.len() => wrong.of_length(&right, input.len(), copy),
        _ => {
            let seen = wrong.seen(&section.summary, input, copy);
            crate::is_support_copy(input, security_first, &seen)
        }
    }
}
