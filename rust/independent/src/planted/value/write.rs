//! The wrong writers: another number, other bytes, or another room.

use super::WrongNumber;
use crate::value::Value;
use crate::{number, Refusal};

/// Wrong ways to write a number.
#[derive(Debug, Clone, Copy, PartialEq, Eq)]
pub enum WrongWriting {
    /// The number is another.
    Number(WrongNumber),
    /// 8 bytes are written for every kind.
    Eight,
    /// So they are where there is room, though 4 are said.
    EightBehind,
    /// 8 bytes have to be lent for every kind.
    EightAsked,
    /// 4 bytes are enough for every kind, and what fits is written.
    FourAsked,
    /// A byte more has to be lent.
    OneMoreAsked,
    /// Exactly the number's bytes have to be lent.
    ExactlyAsked,
    /// Bytes behind the written ones are cleared.
    RestCleared,
    /// What fits is written where the output is short.
    PartWritten,
    /// An output that is short is cleared.
    ShortCleared,
    /// 13 at the output's end.
    ShortAtEnd,
    /// The number is written to the output's end.
    AtEnd,
    /// The output's length is said.
    LengthOfOutput,
}

impl WrongWriting {
    /// All of them.
    pub fn all() -> Vec<Self> {
        let mut all = vec![
            Self::Eight,
            Self::EightBehind,
            Self::EightAsked,
            Self::FourAsked,
            Self::OneMoreAsked,
            Self::ExactlyAsked,
            Self::RestCleared,
            Self::PartWritten,
            Self::ShortCleared,
            Self::ShortAtEnd,
            Self::AtEnd,
            Self::LengthOfOutput,
        ];
        all.extend(WrongNumber::ALL.map(Self::Number));
        all
    }

    /// Whether so many bytes are too few for a number of `size`.
    fn is_short(self, room: usize, size: usize) -> bool {
        match self {
            Self::Eight | Self::EightAsked => room < 8,
            Self::FourAsked => room < 4,
            Self::OneMoreAsked => room <= size,
            Self::ExactlyAsked => room != size,
            _ => room < size,
        }
    }

    /// Refuses an output that is short.
    fn refuse(self, bytes: &[u8], out: &mut [u8]) -> Refusal {
        match self {
            Self::PartWritten => put(bytes, out),
            Self::ShortCleared => out.fill(0),
            _ => {}
        }
        let place = if self == Self::ShortAtEnd { out.len() } else { 0 };
        Refusal { number: number::OUTPUT_SHORT, place }
    }
}

/// Writes as many of `bytes` as there is room for.
fn put(bytes: &[u8], out: &mut [u8]) {
    out.iter_mut().zip(bytes).for_each(|(place, byte)| *place = *byte);
}

/// Writes a number wrongly.
pub fn write_value(wrong: WrongWriting, value: Value, out: &mut [u8]) -> Result<usize, Refusal> {
    let value = if let WrongWriting::Number(wrong) = wrong { wrong.of(value) } else { value };
    let (size, room) = (value.size(), out.len());
    let eight = value.bits().to_le_bytes();
    let bytes = &eight[..size];
    if wrong.is_short(room, size) {
        return Err(wrong.refuse(bytes, out));
    }
    match wrong {
        WrongWriting::Eight | WrongWriting::EightBehind => put(&eight, out),
        WrongWriting::AtEnd => put(bytes, &mut out[room - size..]),
        _ => put(bytes, out),
    }
    if wrong == WrongWriting::RestCleared {
        out[size..].fill(0);
    }
    Ok(match wrong {
        WrongWriting::Eight => eight.len(),
        WrongWriting::LengthOfOutput => room,
        _ => size.min(room),
    })
}
