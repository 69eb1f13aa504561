//! Bodies of a single number (C-16): "BodyType 3 (signed 32-bit), 19 (unsigned 32-bit), 4 (32-bit float) and
//! 5 (64-bit float), little-endian".

use std::fmt;

use crate::lists::{body_type_is_listed, number_size, F32, F64, I32, U32};
use crate::order::{first_failure, Judged, Step};
use crate::read;
use crate::steps::{SectionStep, ENDLESS, VALUE};
use crate::{number, Refusal};

/// "One of these four kinds and carries the number; a float is its bit pattern": two values are the same
/// where kind and bits are, so that every NaN is itself and -0.0 is not 0.0.
#[derive(Clone, Copy)]
pub enum Value {
    /// BodyType 3.
    I32(i32),
    /// BodyType 19.
    U32(u32),
    /// BodyType 4.
    F32(f32),
    /// BodyType 5.
    F64(f64),
}

impl Value {
    /// The value of this BodyType with these bits, of which a number of 4 bytes has the low ones; none of
    /// another type.
    pub fn new(body_type: u32, bits: u64) -> Option<Self> {
        let low = bits as u32;
        match body_type {
            I32 => Some(Self::I32(low as i32)),
            U32 => Some(Self::U32(low)),
            F32 => Some(Self::F32(f32::from_bits(low))),
            F64 => Some(Self::F64(f64::from_bits(bits))),
            _ => None,
        }
    }

    /// The BodyType of a section with this body.
    pub fn body_type(self) -> u32 {
        match self {
            Self::I32(_) => I32,
            Self::U32(_) => U32,
            Self::F32(_) => F32,
            Self::F64(_) => F64,
        }
    }

    /// The number's bits; above those of 4 bytes zeros.
    pub fn bits(self) -> u64 {
        match self {
            Self::I32(number) => (number as u32).into(),
            Self::U32(number) => number.into(),
            Self::F32(number) => number.to_bits().into(),
            Self::F64(number) => number.to_bits(),
        }
    }

    /// The body's bytes: 4 or 8.
    pub fn size(self) -> usize {
        number_size(self.body_type()) as usize
    }
}

impl PartialEq for Value {
    fn eq(&self, other: &Self) -> bool {
        (self.body_type(), self.bits()) == (other.body_type(), other.bits())
    }
}

impl Eq for Value {}

/// A float shows its bits, which tell one NaN from another.
impl fmt::Debug for Value {
    fn fmt(&self, f: &mut fmt::Formatter<'_>) -> fmt::Result {
        match self {
            Self::I32(number) => write!(f, "I32({number})"),
            Self::U32(number) => write!(f, "U32({number})"),
            Self::F32(number) => write!(f, "F32({:#010x})", number.to_bits()),
            Self::F64(number) => write!(f, "F64({:#018x})", number.to_bits()),
        }
    }
}

/// Reads the section at the start of `input` and the number that its body is. "Refusals: the section's, then
/// in this order 62 EB is set, 60 other type, 61 MessageSize is not 4, or not 8 for type 5."
pub fn read_value(input: &[u8], security_first: bool) -> Result<Value, Refusal> {
    read_by(&VALUE, input, security_first)
}

/// [`read_value`] by the steps of `order`.
#[inline(always)]
pub(crate) fn read_by(order: &[SectionStep], input: &[u8], security_first: bool) -> Result<Value, Refusal> {
    let section = read::read_by(order, input, security_first, ENDLESS)?;
    Ok(number_in(section.summary.properties.body_type, section.body))
}

/// The number that a plain `body` of this BodyType is, for who has both from elsewhere, as after decryption.
/// Refuses with 60, then 61 by the body's length.
pub fn value_of(body_type: u32, body: &[u8]) -> Result<Value, Refusal> {
    of_by(&BODY, body_type, body)
}

/// [`value_of`] by the steps of `order`.
#[inline(always)]
pub(crate) fn of_by(order: &[BodyStep], body_type: u32, body: &[u8]) -> Result<Value, Refusal> {
    match first_failure(order, &Body::new(body_type, body)) {
        Some(step) => Err(Refusal::at_start(step.answer)),
        None => Ok(number_in(body_type, body)),
    }
}

/// Writes the number's 4 or 8 bytes to the start of `out` and gives how many they are; the body alone, not a
/// section. "Only 13", which writes nothing.
pub fn write_value(value: Value, out: &mut [u8]) -> Result<usize, Refusal> {
    let size = value.size();
    let place = out.get_mut(..size).ok_or(Refusal::at_start(number::OUTPUT_SHORT))?;
    place.copy_from_slice(&value.bits().to_le_bytes()[..size]);
    Ok(size)
}

/// A step of a body that comes without its section; it answers with the refusal's number.
pub(crate) type BodyStep = Step<fn(&Body) -> bool, u32>;

/// The steps of a body that comes without its section.
pub(crate) const BODY: [BodyStep; 2] = [
    Step { name: "60", answer: number::BODY_TYPE, test: |body| !body_type_is_listed(body.body_type) },
    Step { name: "61", answer: number::BODY_SIZE, test: |body| body.size != number_size(body.body_type) },
];

/// What is looked at of a body that comes without its section.
pub(crate) struct Body {
    pub body_type: u32,
    pub size: u64,
}

impl Body {
    pub(crate) fn new(body_type: u32, body: &[u8]) -> Self {
        Self { body_type, size: body.len() as u64 }
    }
}

impl Judged for Body {
    type Test = fn(&Body) -> bool;
    type Answer = u32;

    #[inline(always)]
    fn fails(&self, test: &Self::Test) -> bool {
        test(self)
    }
}

/// The number that a body is which passed 60 and 61.
fn number_in(body_type: u32, body: &[u8]) -> Value {
    let mut bytes = [0; 8];
    bytes[..body.len()].copy_from_slice(body);
    Value::new(body_type, u64::from_le_bytes(bytes)).expect("the type passed 60")
}
