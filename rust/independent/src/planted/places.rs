//! Refusals at other places than C-17's.

use std::io::{self, Read, Write};

use crate::bytes::breaking_unit;
use crate::copies::{self, Copies};
use crate::listing::{self, RECORD};
use crate::order::first_failure;
use crate::section::SECURITY_FIXED;
use crate::steps::{Headers, SectionStep, ENDLESS, PROVIDER_TYPE, READING, WRITING};
use crate::{read, write, Refusal, Section, SectionValues};

/// The bytes of the units that a program may look at together.
const BLOCK: u64 = 32;

/// Wrong places of refusals.
#[derive(Debug, Clone, Copy, PartialEq, Eq)]
pub enum WrongPlace {
    /// The header's start for every step, as before C-17.
    HeaderStart,
    /// The header's start for this step alone.
    StartOf(&'static str),
    /// In a MessagePropertiesHeader counted from its start.
    FromHeader,
    /// 4 at Flags, whatever DP.
    EmptyAtFlags,
    /// 4 at SenderIdSize where all sizes are zero, whatever DP.
    EmptyAtSize,
    /// 6 by S10 at the identity.
    AtIdentity,
    /// 7 by size at ProviderInfoSize.
    AtProviderInfoSize,
    /// 7 by text at the type.
    AtType,
    /// 11 at MessageSize.
    AtMessageSize,
    /// 11 at MessageSize where that is above the allocation.
    AtLarger,
    /// A label of an odd number of bytes at the header's start.
    OddAtStart,
    /// A label of an odd number of bytes at its last byte.
    OddAtEnd,
    /// The unit after the one that breaks the rule.
    UnitAfter,
    /// The last unit, though a zero one stands before it.
    LastUnit,
    /// The last zero unit before the last one.
    LastZero,
    /// A unit with a zero byte is taken for zero.
    ZeroByte,
    /// Two zero bytes are taken for a unit wherever they stand.
    Unaligned,
    /// The block of units in which the one lies that breaks the rule.
    Block,
    /// The number of units before the one that breaks the rule is taken for their bytes.
    UnitsForBytes,
    /// The unit's offset in its part.
    FromPart,
    /// The name's units counted from the type.
    FromType,
    /// The type looked at as two units of the name.
    TypeAsUnits,
}

impl WrongPlace {
    /// All that show where a section is read and where it is written.
    pub const ALL: [Self; 26] = [
        Self::HeaderStart,
        Self::StartOf("S6"),
        Self::StartOf("S10"),
        Self::StartOf("S11"),
        Self::StartOf("P2"),
        Self::StartOf("P3"),
        Self::StartOf("P4"),
        Self::StartOf("P7"),
        Self::FromHeader,
        Self::EmptyAtFlags,
        Self::EmptyAtSize,
        Self::AtIdentity,
        Self::AtProviderInfoSize,
        Self::AtType,
        Self::AtMessageSize,
        Self::AtLarger,
        Self::UnitAfter,
        Self::LastUnit,
        Self::LastZero,
        Self::ZeroByte,
        Self::Unaligned,
        Self::Block,
        Self::UnitsForBytes,
        Self::FromPart,
        Self::FromType,
        Self::TypeAsUnits,
    ];
    /// The one that shows only where a section is read: the writer has no 5.
    pub const READ: Self = Self::StartOf("S5");
    /// Those that show only where a section is written: no label that is read is odd.
    pub const WRITTEN: [Self; 2] = [Self::OddAtStart, Self::OddAtEnd];

    /// The refusal by the first step of `order` that fails, at the wrong place.
    fn refusal(self, order: &[SectionStep], headers: &Headers<'_>, right: Refusal) -> Refusal {
        let Some(step) = first_failure(order, headers) else { return right };
        Refusal { place: self.place(step.name, headers, right.place as u64) as usize, ..right }
    }

    fn place(self, step: &str, headers: &Headers<'_>, right: u64) -> u64 {
        let Headers { security, properties, .. } = headers;
        let start = if step.starts_with('P') { properties.at } else { 0 };
        match (self, step, security) {
            (Self::HeaderStart, ..) => start,
            (Self::StartOf(one), ..) if one == step => start,
            (Self::FromHeader, ..) => right - start,
            (Self::EmptyAtFlags, "S4", _) => 0,
            (Self::EmptyAtSize, "S4", Some(header)) if header.is_empty() => 2,
            (Self::AtIdentity, "S10", _) => SECURITY_FIXED as u64,
            (Self::AtProviderInfoSize, "S7", _) => 12,
            (Self::AtMessageSize, "P4", _) => start + 32,
            (Self::AtLarger, "P4", _) if properties.allocation < properties.message_size => start + 32,
            (Self::OddAtStart, "P2", _) if properties.label_is_odd() => start,
            (Self::OddAtEnd, "P2", _) if properties.label_is_odd() => {
                properties.label_at() + properties.label_bytes - 1
            }
            (_, "S11", Some(header)) => self.in_name(header.name_at(), header.provider_info, right),
            (_, "P7", _) => self.in_text(properties.label_at(), properties.label, right),
            _ => right,
        }
    }

    /// 7 by text, with the name at `start` and the whole provider info.
    fn in_name(self, start: u64, info: &[u8], right: u64) -> u64 {
        let type_at = start - PROVIDER_TYPE as u64;
        match self {
            Self::AtType => type_at,
            Self::FromPart => right - type_at,
            Self::FromType => right - PROVIDER_TYPE as u64,
            Self::TypeAsUnits => type_at + breaking_unit(info),
            _ => self.in_text(start, &info[PROVIDER_TYPE..], right),
        }
    }

    /// 7 by text and 12, with the units at `start`.
    fn in_text(self, start: u64, units: &[u8], right: u64) -> u64 {
        let last = units.len() - 2;
        let before = || units[..last].chunks_exact(2);
        let from_start = |unit: Option<usize>| start + unit.map_or(last, |unit| 2 * unit) as u64;
        match self {
            Self::UnitAfter => right + 2,
            Self::LastUnit => start + last as u64,
            Self::LastZero => from_start(before().rposition(|unit| unit == [0, 0])),
            Self::ZeroByte => from_start(before().position(|unit| unit.contains(&0))),
            Self::Unaligned => {
                let zeros = units[..last].windows(2).position(|two| two == [0, 0]);
                start + zeros.unwrap_or(last) as u64
            }
            Self::Block => start + (right - start) / BLOCK * BLOCK,
            Self::UnitsForBytes => start + (right - start) / 2,
            Self::FromPart => right - start,
            _ => right,
        }
    }
}

/// Reads with refusals at wrong places; so do the others below.
pub fn read_placed(wrong: WrongPlace, input: &[u8], security_first: bool) -> Result<Section<'_>, Refusal> {
    crate::read(input, security_first).map_err(|right| in_reading(wrong, input, security_first, right))
}

/// Copies with refusals at wrong places.
pub fn support_copy_placed(
    wrong: WrongPlace,
    input: &[u8],
    security_first: bool,
    out: &mut [u8],
) -> Result<usize, Refusal> {
    let answer = crate::support_copy(input, security_first, out);
    answer.map_err(|right| in_reading(wrong, input, security_first, right))
}

/// Writes a section with refusals at wrong places.
pub fn write_placed(wrong: WrongPlace, values: &SectionValues<'_>, out: &mut [u8]) -> Result<usize, Refusal> {
    let headers = write::headers(values, out.len());
    crate::write_section(values, out).map_err(|right| wrong.refusal(&WRITING, &headers, right))
}

/// Lists with refusals at wrong places.
pub fn list_placed(wrong: WrongPlace, input: impl Read, output: impl Write) -> io::Result<()> {
    let read = |section: &[u8], security_first| {
        let answer = listing::answer(section, security_first);
        answer.map_err(|right| in_reading(wrong, section, security_first, right))
    };
    listing::list_by(&RECORD, read, listing::push_line, input, output)
}

/// Copies a day file and says the header's start where a record is refused.
pub fn copy_day_at_headers(file: &[u8]) -> Copies {
    let record = |section: &[u8], security_first| {
        let answer = copies::copied(section, security_first);
        answer.map_err(|right| in_reading(WrongPlace::HeaderStart, section, security_first, right))
    };
    copies::copy_day_by(record, file)
}

/// The refusal of `input`, whose right one is given, at the wrong place.
pub(super) fn in_reading(wrong: WrongPlace, input: &[u8], security_first: bool, right: Refusal) -> Refusal {
    wrong.refusal(&READING, &read::headers(input, security_first, ENDLESS), right)
}
