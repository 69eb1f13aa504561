//! Places with another field or part named than the one that they lie in.

use std::ops::Range;

use crate::field::{self, lengths, means_header, named, whole_header, FieldAt, Lengths};
use crate::number;

/// The provider's type, its name, and what has a padding behind it, by their numbers.
const TYPE: usize = 15;
const NAME: usize = 16;
const PADDED: [usize; 6] = [7, 9, 11, 13, NAME, 32];
/// The certificate and its padding; the provider info and its padding.
const LONGEST: [Range<usize>; 2] = [13..15, TYPE..18];

/// Wrong names of places.
#[derive(Debug, Clone, Copy, PartialEq, Eq)]
pub enum WrongField {
    /// The last byte of this field or part is taken for the first of the next.
    Early(usize),
    /// The first byte of the next one is taken for the last of this field or part.
    Late(usize),
    /// Padding is named as the part before it.
    Padding,
    /// The provider's type is named as its name.
    Type,
    /// Offsets in the name are counted from the type.
    NameOffset,
    /// The offset is the place.
    Place,
    /// Bytes behind the section are named as its padding.
    BehindSection,
    /// Bytes behind the input are named.
    BehindInput,
    /// A size is padded in 32 bits, and wraps.
    Padded32,
    /// 7 by size is named as Flags.
    SizeAtFlags,
    /// 1 and 8 are named as the Flags at their place.
    HeaderAtFlags,
    /// A MessagePropertiesHeader behind a SecurityHeader is named as that one.
    FirstHeader,
}

impl WrongField {
    /// All of them; `Early` and `Late` at each border that a section can have.
    pub fn all() -> Vec<Self> {
        let mut all = vec![
            Self::Padding,
            Self::Type,
            Self::NameOffset,
            Self::Place,
            Self::BehindSection,
            Self::BehindInput,
            Self::Padded32,
            Self::SizeAtFlags,
            Self::HeaderAtFlags,
            Self::FirstHeader,
        ];
        all.extend((1..33).flat_map(|field| [Self::Early(field), Self::Late(field)]));
        all
    }

    /// The wrong bytes of each field and part.
    fn lengths(self, right: &Lengths, input: usize) -> Lengths {
        let mut lengths = *right;
        match self {
            Self::Early(field) if right[field - 1] != 0 => {
                lengths[field - 1] -= 1;
                lengths[field] += 1;
            }
            Self::Late(field) if right[field] != 0 => {
                lengths[field - 1] += 1;
                lengths[field] -= 1;
            }
            Self::Padding => PADDED.into_iter().for_each(|field| {
                lengths[field - 1] += right[field];
                lengths[field] = 0;
            }),
            Self::Type => (lengths[TYPE - 1], lengths[NAME - 1]) = (0, right[TYPE - 1] + right[NAME - 1]),
            Self::BehindSection => lengths[32] += input as u64,
            Self::Padded32 => LONGEST.into_iter().for_each(|fields| {
                let part = &mut lengths[fields.start - 1..fields.end - 1];
                if part.iter().sum::<u64>() == 1 << 32 {
                    part.fill(0);
                }
            }),
            _ => {}
        }
        lengths
    }
}

/// Names the field at a place wrongly.
pub fn field_of(wrong: WrongField, input: &[u8], security_first: bool, number: u32, place: usize) -> FieldAt {
    let right = field::field_of(input, security_first, number, place);
    let fields = lengths(input, security_first);
    match (wrong, number) {
        (WrongField::SizeAtFlags, number::PROVIDER)
        | (WrongField::HeaderAtFlags, number::INPUT_SHORT | number::LIMIT) => {
            named(&fields, input.len(), place)
        }
        (WrongField::FirstHeader, _) if means_header(number, place) => whole_header(security_first, 0),
        _ if means_header(number, place) => right,
        (WrongField::NameOffset, _) if right.field == NAME as u32 => {
            FieldAt { offset: right.offset + 4, ..right }
        }
        (WrongField::Place, _) if right.field != 0 => FieldAt { offset: place, ..right },
        (WrongField::BehindInput, _) => named(&fields, usize::MAX, place),
        _ => named(&wrong.lengths(&fields, input.len()), input.len(), place),
    }
}
