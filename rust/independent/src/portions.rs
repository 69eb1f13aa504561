//! A section read in portions (C-12): "Scanner heads on radio deliver a section a few bytes at a time and
//! have no room for the whole."
//!
//! A section is taken as a row of pieces, each of which is gathered, judged as it passes, or only counted.
//! Where a piece ends is said by the fixed bytes before it, so that a portion may end anywhere.

use crate::bytes::padded;
use crate::read::{properties_fields, security_fields, summary};
use crate::section::{Summary, PROPERTIES_FIXED, SECURITY_FIXED};
use crate::steps::{
    Headers, PropertiesHeader, SecurityHeader, BEFORE_CONTENT, ENDLESS, LABEL_BYTES_MOST, OF_PROPERTIES,
    PROVIDER_TYPE, SENDER_ID_SIZE,
};
use crate::{number, Refusal};

/// The judged bytes of an identity.
const SID: usize = 2;

/// A section that is being read in portions. Nothing in it grows with the section.
#[derive(Debug, Clone, PartialEq, Eq)]
pub struct Portions {
    security_first: bool,
    pub(crate) finished: bool,
    /// The bytes that came, those behind the section included; "the count must not wrap".
    pub(crate) count: usize,
    /// The piece that is coming, and how many of its bytes came.
    piece: Piece,
    came: u64,
    security: [u8; SECURITY_FIXED],
    pub(crate) sid: [u8; SID],
    pub(crate) provider_type: [u8; PROVIDER_TYPE],
    pub(crate) name: Units,
    properties: [u8; PROPERTIES_FIXED],
    pub(crate) label: [u8; LABEL_BYTES_MOST],
}

impl Portions {
    /// The start: nothing came yet.
    pub fn new(security_first: bool) -> Self {
        Self {
            security_first,
            finished: false,
            count: 0,
            piece: if security_first { Piece::Security } else { Piece::Properties },
            came: 0,
            security: [0; SECURITY_FIXED],
            sid: [0; SID],
            provider_type: [0; PROVIDER_TYPE],
            name: Units::default(),
            properties: [0; PROPERTIES_FIXED],
            label: [0; LABEL_BYTES_MOST],
        }
    }

    /// Takes the bytes that come next, none of them too. Refused with 14 after the finish, and with nothing
    /// else: what is wrong with the section is said at the finish.
    pub fn portion(&mut self, bytes: &[u8]) -> Result<(), Refusal> {
        self.is_open()?;
        self.count = self.count.saturating_add(bytes.len());
        let mut rest = bytes;
        while !rest.is_empty() {
            rest = self.take(rest);
        }
        Ok(())
    }

    /// "The summary or refusal that one-go reading gives for all portions joined", without the content of
    /// the provider name. A second finish is refused with 14; so it is where the first was refused.
    pub fn finish(&mut self) -> Result<Summary<'_>, Refusal> {
        self.is_open()?;
        self.finished = true;
        self.answer()
    }

    /// What is said of the section, if it is finished.
    pub(crate) fn answer(&self) -> Result<Summary<'_>, Refusal> {
        let headers = self.headers();
        headers.judge(&BEFORE_CONTENT)?;
        if let Some(header) = &headers.security {
            self.judge_identity(header)?;
            self.judge_name(header)?;
        }
        headers.judge(&OF_PROPERTIES)?;
        Ok(summary(&headers, &self.properties))
    }

    /// "A portion or a second finish after the finish is refused with 14 and changes nothing."
    fn is_open(&self) -> Result<(), Refusal> {
        if self.finished {
            Err(Refusal::at_start(number::AFTER_THE_FINISH))
        } else {
            Ok(())
        }
    }

    /// Takes what `bytes`, which are not none, have of the piece that is coming, and gives the rest of them.
    fn take<'b>(&mut self, bytes: &'b [u8]) -> &'b [u8] {
        let Some(length) = self.length() else { return &[] };
        let left = length - self.came;
        let (now, rest) = bytes.split_at(left.min(bytes.len() as u64) as usize);
        match self.piece {
            Piece::Security => put(&mut self.security, self.came, now),
            Piece::Sid => put(&mut self.sid, self.came, now),
            Piece::ProviderType => put(&mut self.provider_type, self.came, now),
            Piece::Name => self.name.take(now),
            Piece::Properties => put(&mut self.properties, self.came, now),
            Piece::Label => put(&mut self.label, self.came, now),
            Piece::BeforeProvider | Piece::BehindName | Piece::Rest => {}
        }
        self.came += now.len() as u64;
        if !rest.is_empty() {
            (self.piece, self.came) = (self.piece.next(), 0);
        }
        rest
    }

    /// The bytes of the piece that is coming; the last has no end.
    fn length(&self) -> Option<u64> {
        let header = security_fields(&self.security, self.count);
        let sid = header.identity.min(SID as u64);
        let kind = header.provider.min(PROVIDER_TYPE as u64);
        Some(match self.piece {
            Piece::Security => SECURITY_FIXED as u64,
            Piece::Sid => sid,
            Piece::BeforeProvider => header.length() - padded(header.provider) - SECURITY_FIXED as u64 - sid,
            Piece::ProviderType => kind,
            Piece::Name => header.provider - kind,
            Piece::BehindName => padded(header.provider) - header.provider,
            Piece::Properties => PROPERTIES_FIXED as u64,
            Piece::Label => properties_fields(&self.properties, 0, self.count).label_bytes,
            Piece::Rest => return None,
        })
    }

    /// The headers as far as they came, with the provider's type alone for its info.
    fn headers(&self) -> Headers<'_> {
        let security = self.security_first.then(|| {
            let fields = security_fields(&self.security, self.count);
            let provider_info = if fields.provider == 0 { &[] } else { &self.provider_type[..] };
            SecurityHeader { identity_bytes: &self.sid, provider_info, ..fields }
        });
        let at = security.as_ref().map_or(0, SecurityHeader::length);
        let fields = properties_fields(&self.properties, at, self.count);
        // A label that is longer is refused by P2.
        let label = &self.label[..LABEL_BYTES_MOST.min(fields.label_bytes as usize)];
        Headers { security, properties: PropertiesHeader { label, ..fields }, output: ENDLESS }
    }

    /// S10, of a header that passed S1 to S9.
    fn judge_identity(&self, header: &SecurityHeader<'_>) -> Result<(), Refusal> {
        let [first, second] = self.sid.map(u64::from);
        if header.flags.sender_kind() == 1 && (first != 1 || header.identity != 8 + 4 * second) {
            return Err(Refusal { number: number::IDENTITY, place: SENDER_ID_SIZE as usize });
        }
        Ok(())
    }

    /// S11, of a header that passed S1 to S9.
    fn judge_name(&self, header: &SecurityHeader<'_>) -> Result<(), Refusal> {
        let Some(name) = header.provider.checked_sub(PROVIDER_TYPE as u64) else { return Ok(()) };
        let breaking = self.name.breaking(name / 2);
        breaking.map_or(Ok(()), |unit| {
            Err(Refusal { number: number::PROVIDER, place: (header.name_at() + 2 * unit) as usize })
        })
    }
}

/// The pieces of a section, in the order in which they come.
#[derive(Debug, Clone, Copy, PartialEq, Eq)]
enum Piece {
    /// The fixed bytes of the SecurityHeader.
    Security,
    /// The judged bytes of the identity.
    Sid,
    /// The rest of the identity, key, signature and certificate, with their padding.
    BeforeProvider,
    /// The provider's type.
    ProviderType,
    /// The provider's name.
    Name,
    /// The provider info's padding.
    BehindName,
    /// The fixed bytes of the MessagePropertiesHeader.
    Properties,
    /// The label.
    Label,
    /// Extension, body, padding, and what stands behind the section.
    Rest,
}

impl Piece {
    fn next(self) -> Self {
        match self {
            Self::Security => Self::Sid,
            Self::Sid => Self::BeforeProvider,
            Self::BeforeProvider => Self::ProviderType,
            Self::ProviderType => Self::Name,
            Self::Name => Self::BehindName,
            Self::BehindName => Self::Properties,
            Self::Properties => Self::Label,
            Self::Label | Self::Rest => Self::Rest,
        }
    }
}

/// Puts `bytes` into `kept` from `at` on. What does not fit is of a label that P2 refuses.
fn put(kept: &mut [u8], at: u64, bytes: &[u8]) {
    kept.iter_mut().skip(at as usize).zip(bytes).for_each(|(kept, byte)| *kept = *byte);
}

/// Units of a text "judged as it passes": where the first zero one stands.
#[derive(Debug, Clone, PartialEq, Eq, Default)]
pub(crate) struct Units {
    /// The first byte of a unit of which the second has not come: "a portion may split a unit".
    pub half: Option<u8>,
    /// The units that came whole.
    pub count: u64,
    /// How many units stand before the first zero one.
    pub zero: Option<u64>,
}

impl Units {
    fn take(&mut self, mut bytes: &[u8]) {
        if let (Some(low), [high, rest @ ..]) = (self.half, bytes) {
            self.judge(&[[low, *high]]);
            self.half = None;
            bytes = rest;
        }
        let (whole, half) = bytes.as_chunks();
        self.judge(whole);
        if let [low] = half {
            self.half = Some(*low);
        }
    }

    fn judge(&mut self, units: &[[u8; 2]]) {
        if self.zero.is_none() {
            let before = units.iter().position(|unit| *unit == [0, 0]);
            self.zero = before.map(|before| self.count + before as u64);
        }
        self.count += units.len() as u64;
    }

    /// The number of the first unit that breaks the rule, where the text has so many: "the first zero unit
    /// before the last one; where there is none, the last unit (which is not zero)".
    pub(crate) fn breaking(&self, units: u64) -> Option<u64> {
        let last = units - 1;
        (self.zero != Some(last)).then(|| self.zero.unwrap_or(last))
    }
}
