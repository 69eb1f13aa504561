//! Refusals that depend on private bits.

use crate::bytes::u32_at;
use crate::order::first_failure;
use crate::read::headers;
use crate::section::PROPERTIES_FIXED;
use crate::steps::{Headers, ENDLESS, READING};
use crate::{number, Refusal, Section};

/// What a refusal wrongly depends on.
#[derive(Debug, Clone, Copy, PartialEq, Eq)]
pub enum Dependence {
    /// X12 to X15 are taken for bits of AS: 3.
    SecurityX,
    /// 2 and 3 lie at the second byte of Flags where one of X12 to X15 is set.
    SecurityXPlace,
    /// The X bits of the properties Flags have to be zero: 9.
    PropertiesX,
    /// MessageClass is read as 32 bits, two bytes of CorrelationID among them: 10.
    CorrelationId,
    /// ApplicationTag is taken for MessageSize: 11.
    ApplicationTag,
    /// 11 lies at ApplicationTag where that is odd.
    ApplicationTagPlace,
    /// S10 looks at the first byte of an identity for ST 2 too: 6.
    Identity,
    /// S11 looks at the provider info with its padding, which has to be zero: 7.
    Padding,
}

impl Dependence {
    /// All of them.
    pub const ALL: [Self; 8] = [
        Self::SecurityX,
        Self::SecurityXPlace,
        Self::PropertiesX,
        Self::CorrelationId,
        Self::ApplicationTag,
        Self::ApplicationTagPlace,
        Self::Identity,
        Self::Padding,
    ];

    /// The wrong refusal of `input`, where there is one; `right` is the right one.
    fn refusal(self, input: &[u8], security_first: bool, right: Option<Refusal>) -> Option<Refusal> {
        let headers = headers(input, security_first, ENDLESS);
        let has_x = security_first && input.get(1).is_some_and(|flags| flags & 0xF0 != 0);
        let at = headers.properties.at as usize;
        let fixed = input.get(at..).and_then(<[u8]>::first_chunk).unwrap_or(&[0; PROPERTIES_FIXED]);
        let tag = u32_at(fixed, 28);
        match (self, right) {
            (Self::SecurityX, _) if has_x => refused_by("S3", &headers),
            (
                Self::SecurityXPlace,
                Some(Refusal { number: number @ (number::SENDER_KIND | number::AUTHENTICATED), .. }),
            ) if has_x => Some(Refusal { number, place: 1 }),
            (Self::PropertiesX, _) if fixed[0] & 0xF0 != 0 => refused_by("P2", &headers),
            (Self::CorrelationId, _) if fixed[4..6] != [0, 0] => refused_by("P3", &headers),
            (Self::ApplicationTag, _) if u64::from(tag) > headers.properties.allocation => {
                refused_by("P4", &headers)
            }
            (Self::ApplicationTagPlace, Some(Refusal { number: number::ALLOCATION, .. })) if tag % 2 == 1 => {
                Some(Refusal { number: number::ALLOCATION, place: at + 28 })
            }
            (Self::Identity, _) if identity_is_odd(&headers) => refused_by("S10", &headers),
            (Self::Padding, _) if has_padding(&headers, input) => refused_by("S11", &headers),
            _ => None,
        }
    }
}

/// The refusal by this step, where none before it fails.
fn refused_by(step: &str, headers: &Headers<'_>) -> Option<Refusal> {
    let at = READING.iter().position(|one| one.name == step).expect("a step's name");
    let refusal = || Refusal { number: READING[at].answer, place: headers.place(&READING[at].test) };
    first_failure(&READING[..at], headers).is_none().then(refusal)
}

/// Whether an identity of kind 2 does not begin as one of kind 1 has to.
fn identity_is_odd(headers: &Headers<'_>) -> bool {
    let header = headers.security.as_ref().filter(|header| header.flags.sender_kind() == 2);
    header.and_then(|header| header.identity_bytes.first()).is_some_and(|&first| first != 1)
}

/// Whether the padding behind the provider info is not zero.
fn has_padding(headers: &Headers<'_>, input: &[u8]) -> bool {
    let Some(header) = &headers.security else { return false };
    let end = header.length() as usize;
    let padding = (header.provider.wrapping_neg() % 4) as usize;
    input.get(end - padding..end).is_some_and(|bytes| bytes.iter().any(|&byte| byte != 0))
}

/// Reads with refusals that depend on private bits; so does the next.
pub fn read_dependent(wrong: Dependence, input: &[u8], security_first: bool) -> Result<Section<'_>, Refusal> {
    let answer = crate::read(input, security_first);
    wrong.refusal(input, security_first, answer.err()).map_or(answer, Err)
}

/// Copies with them.
pub fn support_copy_dependent(
    wrong: Dependence,
    input: &[u8],
    security_first: bool,
    out: &mut [u8],
) -> Result<usize, Refusal> {
    read_dependent(wrong, input, security_first)?;
    crate::support_copy(input, security_first, out)
}
