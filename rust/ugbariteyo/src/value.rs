//! Bodies that are a single number.

use std::hash::{Hash, Hasher};

use crate::refusal::{Kind, Refusal};
use crate::section::First;
use crate::{ffi, ffi::accepted};

/// The number that a body is, of one of four kinds, little-endian in the body.
///
/// Every bit pattern is kept, of a float too: the payload of a NaN, whether it is a signalling one, and the sign of a
/// zero. Two values are equal when they are of one kind and have the same bits: a NaN equals itself, `-0.0` is not
/// `0.0`, and `I32(7)` is not `U32(7)`.
///
/// ```
/// use ugbariteyo::BodyValue;
///
/// assert_eq!(BodyValue::F64(f64::NAN), BodyValue::F64(f64::NAN));
/// assert_ne!(BodyValue::F64(-0.0), BodyValue::F64(0.0));
/// assert_ne!(BodyValue::I32(-1), BodyValue::U32(u32::MAX));
/// ```
#[derive(Debug, Clone, Copy)]
pub enum BodyValue {
    /// BodyType 3: signed, in 4 bytes, two's complement.
    I32(i32),
    /// BodyType 19: unsigned, in 4 bytes.
    U32(u32),
    /// BodyType 4: a float, in 4 bytes.
    F32(f32),
    /// BodyType 5: a float, in 8 bytes.
    F64(f64),
}

impl BodyValue {
    /// The BodyType of [`I32`](Self::I32).
    pub const VT_I4: u32 = 3;
    /// The BodyType of [`F32`](Self::F32).
    pub const VT_R4: u32 = 4;
    /// The BodyType of [`F64`](Self::F64).
    pub const VT_R8: u32 = 5;
    /// The BodyType of [`U32`](Self::U32).
    pub const VT_UI4: u32 = 19;

    /// The BodyType of its kind, which a request or a section has to give beside the body.
    #[inline]
    pub fn body_type(&self) -> u32 {
        match self {
            Self::I32(_) => Self::VT_I4,
            Self::U32(_) => Self::VT_UI4,
            Self::F32(_) => Self::VT_R4,
            Self::F64(_) => Self::VT_R8,
        }
    }

    /// The number's bit pattern; of a number in 4 bytes the upper half is zero.
    ///
    /// ```
    /// use ugbariteyo::BodyValue;
    ///
    /// assert_eq!(BodyValue::I32(-1).bits(), 0xFFFF_FFFF);
    /// assert_eq!(BodyValue::F32(-0.0).bits(), 0x8000_0000);
    /// ```
    #[inline]
    pub fn bits(&self) -> u64 {
        match *self {
            Self::I32(number) => number.cast_unsigned().into(),
            Self::U32(number) => number.into(),
            Self::F32(number) => number.to_bits().into(),
            Self::F64(number) => number.to_bits(),
        }
    }

    /// How many bytes a body of its kind has: 8 for [`F64`](Self::F64), else 4.
    #[inline]
    pub fn size(&self) -> usize {
        match self {
            Self::I32(_) | Self::U32(_) | Self::F32(_) => 4,
            Self::F64(_) => 8,
        }
    }
}

impl PartialEq for BodyValue {
    #[inline]
    fn eq(&self, other: &Self) -> bool {
        (self.body_type(), self.bits()) == (other.body_type(), other.bits())
    }
}

impl Eq for BodyValue {}

impl Hash for BodyValue {
    fn hash<H: Hasher>(&self, state: &mut H) {
        (self.body_type(), self.bits()).hash(state);
    }
}

/// The library's answer.
#[inline]
fn answered(answer: ffi::ValueRead) -> Result<BodyValue, Refusal> {
    accepted(answer.refusal)?;
    let bits = answer.value.bits;
    match answer.value.body_type {
        BodyValue::VT_I4 => Ok(BodyValue::I32(bits as i32)),
        BodyValue::VT_UI4 => Ok(BodyValue::U32(bits as u32)),
        BodyValue::VT_R4 => Ok(BodyValue::F32(f32::from_bits(bits as u32))),
        BodyValue::VT_R8 => Ok(BodyValue::F64(f64::from_bits(bits))),
        // The library accepts no other type. Were there one, this is what would have to be said of it.
        _ => Err(Refusal { number: Kind::BodyType as u32, place: 0 }),
    }
}

/// The number that is the body of the section at the start of `input`.
///
/// # Errors
///
/// As of [`read`](crate::read), then 62 where EB is set, 60 where BodyType is none of 3, 4, 5 and 19, and 61 where
/// MessageSize is not 4, or not 8 for BodyType 5. The place of these three is 0.
///
/// ```
/// use ugbariteyo::{read_value, BodyValue, First, Kind};
///
/// let mut input = [0; 60];
/// input[24] = 3; // BodyType
/// input[32] = 4; // MessageSize
/// input[36] = 4; // AllocationBodySize
/// input[56..].fill(0xFF);
/// assert_eq!(read_value(&input, First::PropertiesHeader), Ok(BodyValue::I32(-1)));
///
/// input[24] = 5; // a body of 8 bytes
/// let refusal = read_value(&input, First::PropertiesHeader).unwrap_err();
/// assert_eq!(refusal.kind(), Some(Kind::BodySize));
/// ```
#[inline]
pub fn read_value(input: &[u8], first: First) -> Result<BodyValue, Refusal> {
    answered(ffi::read_value(input, first))
}

/// The number that is a body of this BodyType, for who has the two from elsewhere: from decrypting the body of a
/// section that [`read_value`] refuses with 62, or from a [`Reading`](crate::Reading).
///
/// # Errors
///
/// 60 where the type is none of 3, 4, 5 and 19, then 61 where the body has not 4 bytes, or not 8 for type 5.
///
/// ```
/// use ugbariteyo::{value_of, BodyValue};
///
/// assert_eq!(value_of(19, b"\x07\0\0\0"), Ok(BodyValue::U32(7)));
/// assert_eq!(value_of(8, b"text").unwrap_err().number, 60);
/// assert_eq!(value_of(19, b"\x07\0").unwrap_err().number, 61);
/// ```
#[inline]
pub fn value_of(body_type: u32, body: &[u8]) -> Result<BodyValue, Refusal> {
    answered(ffi::value_of(body_type, body))
}

/// Writes the body that is this number to the front of `out`, and gives its length, which is
/// [`size`](BodyValue::size). Bytes of `out` behind it stay as they were. What was read is written as the same bytes.
///
/// # Errors
///
/// 13 where `out` is shorter. Nothing is written then.
///
/// ```
/// use ugbariteyo::{write_value, BodyValue};
///
/// let mut out = [7; 6];
/// assert_eq!(write_value(BodyValue::I32(i32::MIN), &mut out), Ok(4));
/// assert_eq!(out, [0, 0, 0, 0x80, 7, 7]);
/// assert_eq!(write_value(BodyValue::F64(0.5), &mut out).unwrap_err().number, 13);
/// ```
#[inline]
pub fn write_value(value: BodyValue, out: &mut [u8]) -> Result<usize, Refusal> {
    ffi::written(ffi::write_value(value.into(), out))
}

/// The body that is this number in a vector of its own.
///
/// ```
/// use ugbariteyo::{write_value_vec, BodyValue};
///
/// assert_eq!(write_value_vec(BodyValue::F32(-0.0)), [0, 0, 0, 0x80]);
/// ```
#[inline]
pub fn write_value_vec(value: BodyValue) -> Vec<u8> {
    let mut body = vec![0; value.size()];
    // there is room; a refusal would leave no byte rather than wrong ones
    let length = write_value(value, &mut body).unwrap_or_default();
    body.truncate(length);
    body
}
