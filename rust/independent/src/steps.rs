//! The steps of a section, read or to be written: S1 to S11, P1 to P7, 28 and 13; and of the number that its
//! body is: 62, 60 and 61.

use crate::bytes::{breaking_unit, only_last_is_zero, padded};
use crate::lists::{body_type_is_listed, class_is_listed, number_size};
use crate::order::{first_failure, Judged, Step};
use crate::section::{Part, Parts, SecurityFlags, LABEL_MOST, LIMIT, PROPERTIES_FIXED, SECURITY_FIXED};
use crate::{number, Refusal};

/// The most bytes of a key, a signature or a certificate.
const PART_MOST: u64 = 65_535;
/// The most bytes of a label.
pub(crate) const LABEL_BYTES_MOST: usize = 2 * LABEL_MOST as usize;
/// The bytes of the provider's type, before its name.
pub(crate) const PROVIDER_TYPE: usize = 4;
/// The bytes of an input or an output that no step finds short: there is none.
pub(crate) const ENDLESS: usize = usize::MAX;

/// A step of a section; it answers with the refusal's number.
pub(crate) type SectionStep = Step<Test, u32>;

/// What is asked of a SecurityHeader, and of a MessagePropertiesHeader.
type OfSecurity<T> = fn(&SecurityHeader<'_>) -> T;
type OfProperties<T> = fn(&PropertiesHeader<'_>) -> T;

/// The header that a step looks at: whether the step fails, and the place of its refusal in the section.
#[derive(Clone, Copy)]
pub(crate) enum Test {
    /// The SecurityHeader; the step passes where there is none.
    Security { place: OfSecurity<u64>, fails: OfSecurity<bool> },
    /// The MessagePropertiesHeader.
    Properties { place: OfProperties<u64>, fails: OfProperties<bool> },
    /// 13: the lent output is shorter than the section. Its place is 0.
    Output,
}

const fn security(
    name: &'static str,
    number: u32,
    place: OfSecurity<u64>,
    fails: OfSecurity<bool>,
) -> SectionStep {
    Step { name, answer: number, test: Test::Security { place, fails } }
}

const fn properties(
    name: &'static str,
    number: u32,
    place: OfProperties<u64>,
    fails: OfProperties<bool>,
) -> SectionStep {
    Step { name, answer: number, test: Test::Properties { place, fails } }
}

/// Places in a SecurityHeader, which stands at 0: its start, and the first bytes of fields that fail.
const START: u64 = 0;
const FLAGS: u64 = 0;
pub(crate) const SENDER_ID_SIZE: u64 = 2;
const SENDER_CERT_SIZE: u64 = 8;

const S1: SectionStep = security("S1", number::INPUT_SHORT, |_| START, |h| h.input < SECURITY_FIXED);
const S2: SectionStep = security("S2", number::SENDER_KIND, |_| FLAGS, |h| h.flags.sender_kind() > 2);
const S3: SectionStep = security(
    "S3",
    number::AUTHENTICATED,
    |_| FLAGS,
    |h| h.flags.authenticated() || h.flags.signature_kind() != 0,
);
const S4: SectionStep = security(
    "S4",
    number::EMPTY,
    |h| if h.flags.data_present() { SENDER_ID_SIZE } else { FLAGS },
    |h| h.is_empty() || !h.flags.data_present(),
);
const S5: SectionStep =
    security("S5", number::CERTIFICATE, |_| SENDER_CERT_SIZE, |h| h.certificate > PART_MOST);
const S6: SectionStep = security(
    "S6",
    number::IDENTITY,
    |_| SENDER_ID_SIZE,
    |h| !identity_size_fits(h.flags.sender_kind(), h.identity),
);
const S7: SectionStep = security("S7", number::PROVIDER, |_| START, |h| !h.provider_size_fits());
const S8: SectionStep = security("S8", number::LIMIT, |_| START, |h| h.length() > LIMIT);
const S9: SectionStep = security("S9", number::INPUT_SHORT, |_| START, |h| h.length() > h.input as u64);
const S10: SectionStep = security(
    "S10",
    number::IDENTITY,
    |_| SENDER_ID_SIZE,
    |h| identity_begins_wrong(h.flags.sender_kind(), h.identity_bytes),
);
const S11: SectionStep = security(
    "S11",
    number::PROVIDER,
    |h| h.name_at() + breaking_unit(h.name().unwrap_or_default()),
    |h| h.name().is_some_and(|name| !only_last_is_zero(name)),
);

/// Offsets in a MessagePropertiesHeader of the fields that fail.
const LABEL_LENGTH: u64 = 1;
const MESSAGE_CLASS: u64 = 2;
const ALLOCATION_BODY_SIZE: u64 = 36;

const P1: SectionStep =
    properties("P1", number::INPUT_SHORT, |h| h.at, |h| (h.input as u64) < h.at + PROPERTIES_FIXED as u64);
const P2: SectionStep = properties(
    "P2",
    number::LABEL_LENGTH,
    |h| h.at + LABEL_LENGTH,
    |h| h.label_bytes > LABEL_BYTES_MOST as u64 || h.label_is_odd(),
);
const P3: SectionStep =
    properties("P3", number::CLASS, |h| h.at + MESSAGE_CLASS, |h| !class_is_listed(h.class));
const P4: SectionStep =
    properties("P4", number::ALLOCATION, |h| h.at + ALLOCATION_BODY_SIZE, |h| h.allocation_is_wrong());
const P5: SectionStep = properties("P5", number::LIMIT, |h| h.at, |h| h.length() > LIMIT);
const P6: SectionStep = properties("P6", number::INPUT_SHORT, |h| h.at, |h| h.length() > h.input as u64);
const P7: SectionStep = properties(
    "P7",
    number::LABEL,
    |h| h.label_at() + breaking_unit(h.label),
    |h| !h.label.is_empty() && !only_last_is_zero(h.label),
);

/// C-16's steps. Their place is 0, wherever the header stands.
const EB: SectionStep = security("62", number::BODY_ENCRYPTED, |_| START, |h| h.flags.body_encrypted());
const BODY_TYPE: SectionStep =
    properties("60", number::BODY_TYPE, |_| START, |h| !body_type_is_listed(h.body_type));
const BODY_SIZE: SectionStep =
    properties("61", number::BODY_SIZE, |_| START, |h| h.message_size != number_size(h.body_type));

const PART_SIZE: SectionStep = security("28", number::PART_SIZE, |_| START, |h| h.part_is_long());
const OUTPUT: SectionStep = Step { name: "13", answer: number::OUTPUT_SHORT, test: Test::Output };

/// The steps of reading; then 13, which is the support copy's.
pub(crate) const READING: [SectionStep; 19] =
    [S1, S2, S3, S4, S5, S6, S7, S8, S9, S10, S11, P1, P2, P3, P4, P5, P6, P7, OUTPUT];

/// The steps of a body of a single number (C-16): "the section's, then in this order 62 .., 60 .., 61".
pub(crate) const VALUE: [SectionStep; 21] =
    [S1, S2, S3, S4, S5, S6, S7, S8, S9, S10, S11, P1, P2, P3, P4, P5, P6, P7, EB, BODY_TYPE, BODY_SIZE];

/// The steps of reading on how long the input is: where they pass, all that the sizes give is there.
pub(crate) const LENGTHS: [SectionStep; 4] = [S1, S9, P1, P6];

/// The steps of reading on a SecurityHeader before those on what its parts hold.
pub(crate) const BEFORE_CONTENT: [SectionStep; 9] = [S1, S2, S3, S4, S5, S6, S7, S8, S9];
/// The steps of reading on a MessagePropertiesHeader.
pub(crate) const OF_PROPERTIES: [SectionStep; 7] = [P1, P2, P3, P4, P5, P6, P7];

/// The steps of the section writer: "28, then the same steps without S1, S9, P1, P6, then 13". S5
/// is not among them: no certificate that fails it passes 28.
pub(crate) const WRITING: [SectionStep; 15] =
    [PART_SIZE, S2, S3, S4, S6, S7, S8, S10, S11, P2, P3, P4, P5, P7, OUTPUT];

/// The headers of a section.
pub(crate) struct Headers<'a> {
    pub security: Option<SecurityHeader<'a>>,
    pub properties: PropertiesHeader<'a>,
    /// The bytes of the lent output.
    pub output: usize,
}

impl Judged for Headers<'_> {
    type Test = Test;
    type Answer = u32;

    #[inline(always)]
    fn fails(&self, test: &Test) -> bool {
        match test {
            Test::Security { fails, .. } => self.security.as_ref().is_some_and(fails),
            Test::Properties { fails, .. } => fails(&self.properties),
            Test::Output => self.properties.length() > self.output as u64,
        }
    }
}

impl Headers<'_> {
    /// The refusal of the first step of `order` that fails.
    #[inline(always)]
    pub(crate) fn judge(&self, order: &[SectionStep]) -> Result<(), Refusal> {
        let Some(step) = first_failure(order, self) else { return Ok(()) };
        Err(Refusal { number: step.answer, place: self.place(&step.test) })
    }

    /// The place of the refusal by a step with this test.
    pub(crate) fn place(&self, test: &Test) -> usize {
        let place = match test {
            Test::Security { place, .. } => self.security.as_ref().map_or(START, place),
            Test::Properties { place, .. } => place(&self.properties),
            Test::Output => START,
        };
        place as usize
    }

    /// Start and length of each part, of a section that passed its steps.
    pub(crate) fn parts(&self) -> Parts {
        let mut parts = Parts::default();
        if let Some(security) = &self.security {
            security.lay_out(&mut parts);
        }
        self.properties.lay_out(&mut parts);
        parts
    }
}

/// What is looked at of a SecurityHeader. Sizes are 64 bits wide, so that neither a part's length
/// nor a sum of them wraps.
pub(crate) struct SecurityHeader<'a> {
    /// The bytes of the input.
    pub input: usize,
    pub flags: SecurityFlags,
    pub identity: u64,
    pub key: u64,
    pub signature: u64,
    pub certificate: u64,
    pub provider: u64,
    /// The identity, or nothing where the input ends before it does.
    pub identity_bytes: &'a [u8],
    /// The provider info, or nothing where the input ends before it does.
    pub provider_info: &'a [u8],
}

impl SecurityHeader<'_> {
    fn sizes(&self) -> [u64; 5] {
        [self.identity, self.key, self.signature, self.certificate, self.provider]
    }

    /// The header's length.
    pub(crate) fn length(&self) -> u64 {
        SECURITY_FIXED as u64 + self.sizes().into_iter().map(padded).sum::<u64>()
    }

    /// Fills in the five security parts.
    pub(crate) fn lay_out(&self, parts: &mut Parts) {
        let mut start = SECURITY_FIXED as u64;
        let mut next = |size| {
            let part = part(start, size);
            start += padded(size);
            part
        };
        parts.identity = next(self.identity);
        parts.key = next(self.key);
        parts.signature = next(self.signature);
        parts.certificate = next(self.certificate);
        parts.provider = next(self.provider);
    }

    /// The provider info behind its 4-byte type.
    pub(crate) fn name(&self) -> Option<&[u8]> {
        self.provider_info.get(PROVIDER_TYPE..)
    }

    /// Where the provider name begins.
    pub(crate) fn name_at(&self) -> u64 {
        self.length() - padded(self.provider) + PROVIDER_TYPE as u64
    }

    /// S4.
    pub(crate) fn is_empty(&self) -> bool {
        self.sizes() == [0; 5]
    }

    /// S7.
    fn provider_size_fits(&self) -> bool {
        let even = self.provider.is_multiple_of(2);
        if self.flags.default_provider() {
            self.provider == 0
        } else if self.signature != 0 {
            even && self.provider >= 8
        } else {
            self.provider == 0 || even && self.provider >= 6
        }
    }

    /// 28.
    pub(crate) fn part_is_long(&self) -> bool {
        [self.key, self.signature, self.certificate].iter().any(|&size| size > PART_MOST)
    }
}

/// A part. Sizes that are read have 32 bits and the others are lengths in memory: no place wraps.
fn part(start: u64, length: u64) -> Part {
    Part { start: start as usize, length: length as usize }
}

/// S6, for a sender kind of at most 2.
fn identity_size_fits(kind: u8, size: u64) -> bool {
    match kind {
        0 => size == 0,
        1 => (8..=68).contains(&size) && size.is_multiple_of(4),
        _ => size == 16,
    }
}

/// S10, for an identity whose size passed S6.
fn identity_begins_wrong(kind: u8, identity: &[u8]) -> bool {
    match *identity {
        [first, second, ..] if kind == 1 => first != 1 || identity.len() != 8 + 4 * usize::from(second),
        _ => false,
    }
}

/// S6 and S10 together, for a sender kind of at most 2.
pub(crate) fn identity_is_right(kind: u8, identity: &[u8]) -> bool {
    identity_size_fits(kind, identity.len() as u64) && !identity_begins_wrong(kind, identity)
}

/// What is looked at of a MessagePropertiesHeader.
pub(crate) struct PropertiesHeader<'a> {
    /// The bytes of the input.
    pub input: usize,
    /// Where the header begins.
    pub at: u64,
    pub label_bytes: u64,
    pub class: u16,
    pub body_type: u32,
    pub message_size: u64,
    pub allocation: u64,
    pub extension: u64,
    /// The label, or nothing where the input ends before it does.
    pub label: &'a [u8],
}

impl PropertiesHeader<'_> {
    /// The section's length.
    pub(crate) fn length(&self) -> u64 {
        padded(self.label_at() + self.label_bytes + self.extension + self.message_size)
    }

    /// Where the label begins.
    pub(crate) fn label_at(&self) -> u64 {
        self.at + PROPERTIES_FIXED as u64
    }

    /// P2, of a label to be written.
    pub(crate) fn label_is_odd(&self) -> bool {
        !self.label_bytes.is_multiple_of(2)
    }

    /// Fills in the last three parts.
    pub(crate) fn lay_out(&self, parts: &mut Parts) {
        let label = self.label_at();
        let extension = label + self.label_bytes;
        parts.label = part(label, self.label_bytes);
        parts.extension = part(extension, self.extension);
        parts.body = part(extension + self.extension, self.message_size);
    }

    /// P4.
    pub(crate) fn allocation_is_wrong(&self) -> bool {
        self.allocation < self.message_size || self.allocation > LIMIT
    }
}
