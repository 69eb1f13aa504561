//! The wrong readers: another number, other steps, or steps in another order.

use super::WrongNumber;
use crate::lists::{body_type_is_listed, number_size, F32, I32, U32};
use crate::planted::{is_encrypted, moved, read_placed, WrongPlace};
use crate::section::{Section, PROPERTIES_FIXED};
use crate::steps::VALUE;
use crate::value::{self, Value};
use crate::{number, Refusal};

/// Wrong ways to read the number that a body is.
#[derive(Debug, Clone, Copy, PartialEq, Eq)]
pub enum WrongValue {
    /// The number is another.
    Number(WrongNumber),
    /// Type 3 is read as unsigned.
    SignLost,
    /// Types 3 and 19 are exchanged.
    TypesExchanged,
    /// A 32-bit float is read as an unsigned number.
    FloatAsBits,
    /// A 32-bit float is read as a 64-bit one.
    FloatWidened,
    /// These bits of BodyType alone are looked at.
    TypeCut(u32),
    /// Types 22 and 23 are read as 3 and 19, which have as many bytes.
    MoreTypes,
    /// Type 5 is read from 4 bytes, and from no others.
    DoubleOfFour,
    /// 4 bytes pass for type 5 too.
    FourForDouble,
    /// 8 bytes pass for the other types too.
    EightForOthers,
    /// A longer body passes.
    Longer,
    /// A body passes that is as long with its padding.
    Padded,
    /// These bits of the size alone are looked at.
    SizeCut(u64),

    /// AllocationBodySize stands for MessageSize.
    AllocationAsSize,
    /// EB is not looked at.
    EbIgnored,
    /// A key is taken for EB.
    EbByKey,
    /// EB counts only with a key.
    EbWithKey,
    /// EB is looked for in the first byte also where no SecurityHeader stands first.
    EbWithoutHeader,
    /// The first of these steps comes right before the second.
    Moved(&'static str, &'static str),
    /// 60 and 61 at the first byte of their field.
    AtField,
    /// The section's refusals at the header's start.
    SectionAtStart,
    /// The extension is padded before the body.
    ExtensionPadded,
    /// The number is read from the section's end, padding included.
    FromEnd,
}

/// C-16's steps before others of them, before all of the section's, and before some.
const MOVED: [(&str, &str); 9] = [
    ("60", "62"),
    ("61", "60"),
    ("61", "62"),
    ("62", "S1"),
    ("60", "S1"),
    ("61", "S1"),
    ("62", "P1"),
    ("60", "P7"),
    ("61", "P4"),
];

impl WrongValue {
    /// Those that show without a section.
    pub fn of_body() -> Vec<Self> {
        let mut all = vec![
            Self::SignLost,
            Self::TypesExchanged,
            Self::FloatAsBits,
            Self::FloatWidened,
            Self::MoreTypes,
            Self::DoubleOfFour,
            Self::FourForDouble,
            Self::EightForOthers,
            Self::Longer,
            Self::Padded,
        ];
        all.extend(WrongNumber::ALL.map(Self::Number));
        all.extend([0xFF, 0xFFFF, 0x7FFF_FFFF].map(Self::TypeCut));
        all.extend([0xFF, 0xFFFF].map(Self::SizeCut));
        all
    }

    /// All of them.
    pub fn all() -> Vec<Self> {
        let mut all = Self::of_body();
        all.extend([
            Self::AllocationAsSize,
            Self::EbIgnored,
            Self::EbByKey,
            Self::EbWithKey,
            Self::EbWithoutHeader,
            Self::AtField,
            Self::SectionAtStart,
            Self::ExtensionPadded,
            Self::FromEnd,
        ]);
        all.extend(MOVED.map(|(step, before)| Self::Moved(step, before)));
        all
    }

    /// The type that a BodyType is taken for.
    fn taken_for(self, body_type: u32) -> u32 {
        match (self, body_type) {
            (Self::SignLost | Self::TypesExchanged, I32) => U32,
            (Self::TypesExchanged, U32) => I32,
            (Self::FloatAsBits, F32) => U32,
            (Self::MoreTypes, 22) => I32,
            (Self::MoreTypes, 23) => U32,
            (Self::TypeCut(bits), _) => body_type & bits,
            _ => body_type,
        }
    }

    /// Whether 61 passes.
    fn passes(self, body_type: u32, size: u64) -> bool {
        let right = number_size(body_type);
        match self {
            Self::DoubleOfFour => size == 4,
            Self::FourForDouble => size == right || size == 4,
            Self::EightForOthers => size == right || size == 8,
            Self::Longer => size >= right,
            Self::Padded => size.next_multiple_of(4) == right,
            Self::SizeCut(bits) => size & bits == right,
            _ => size == right,
        }
    }

    /// The number at the start of `bytes`, with zeros behind them.
    fn number_in(self, body_type: u32, bytes: &[u8]) -> Value {
        let mut eight = [0; 8];
        eight.iter_mut().zip(bytes).for_each(|(byte, there)| *byte = *there);
        let bits = u64::from_le_bytes(eight);
        let right = Value::new(body_type, bits).expect("the type passed 60");
        match (self, right) {
            (Self::Number(wrong), _) => wrong.of(right),
            (Self::FloatWidened, Value::F32(number)) => Value::F64(number.into()),
            (Self::DoubleOfFour, Value::F64(_)) => Value::F64(f32::from_bits(bits as u32).into()),
            _ => right,
        }
    }

    /// The wrong answer by 62, 60 and 61; `bytes` are those from the body's first one on.
    fn judge(self, encrypted: bool, body_type: u32, size: u64, bytes: &[u8]) -> Result<Value, Refusal> {
        let body_type = self.taken_for(body_type);
        let steps = [
            (number::BODY_ENCRYPTED, encrypted),
            (number::BODY_TYPE, !body_type_is_listed(body_type)),
            (number::BODY_SIZE, !self.passes(body_type, size)),
        ];
        match steps.into_iter().find(|(_, fails)| *fails) {
            Some((number, _)) => Err(Refusal::at_start(number)),
            None => Ok(self.number_in(body_type, bytes)),
        }
    }

    /// Whether 62 fails.
    fn is_encrypted(self, section: &Section<'_>, first: u8) -> bool {
        let (right, has_key) = (is_encrypted(&section.summary), !section.key.is_empty());
        match self {
            Self::EbIgnored => false,
            Self::EbByKey => has_key,
            Self::EbWithKey => right && has_key,
            Self::EbWithoutHeader => first & 0x20 != 0,
            _ => right,
        }
    }

    /// Where the number is read.
    fn at(self, section: &Section<'_>) -> usize {
        let parts = &section.summary.parts;
        match self {
            Self::ExtensionPadded => parts.extension.start + parts.extension.length.next_multiple_of(4),
            Self::FromEnd => section.summary.length - parts.body.length,
            _ => parts.body.start,
        }
    }
}

/// Reads the number that a section's body is wrongly.
pub fn read_value(wrong: WrongValue, input: &[u8], security_first: bool) -> Result<Value, Refusal> {
    let section = match wrong {
        WrongValue::Moved(step, before) => {
            return value::read_by(&moved(&VALUE, step, before), input, security_first);
        }
        WrongValue::SectionAtStart => read_placed(WrongPlace::HeaderStart, input, security_first),
        _ => crate::read(input, security_first),
    }?;
    let properties = &section.summary.properties;
    let by_allocation = wrong == WrongValue::AllocationAsSize;
    let size = if by_allocation { properties.allocation } else { properties.message_size };
    let encrypted = wrong.is_encrypted(&section, input[0]);
    let bytes = input.get(wrong.at(&section)..).unwrap_or_default();
    let answer = wrong.judge(encrypted, properties.body_type, size.into(), bytes);
    let header = section.summary.parts.label.start - PROPERTIES_FIXED;
    answer.map_err(|refusal| match (wrong, refusal.number) {
        (WrongValue::AtField, number::BODY_TYPE) => Refusal { place: header + 24, ..refusal },
        (WrongValue::AtField, number::BODY_SIZE) => Refusal { place: header + 32, ..refusal },
        _ => refusal,
    })
}

/// Takes a body for a number wrongly.
pub fn value_of(wrong: WrongValue, body_type: u32, body: &[u8]) -> Result<Value, Refusal> {
    wrong.judge(false, body_type, body.len() as u64, body)
}
