//! The number that a body is.

use super::{Output, Refusal};
use crate::section::First;
use crate::value;

#[repr(C)]
pub(crate) struct ValueRead {
    pub refusal: Refusal,
    pub value: BodyValue,
}

/// In C the bit pattern is a union with the number, of which each kind stands at its first byte.
#[repr(C)]
#[derive(Clone, Copy)]
pub(crate) struct BodyValue {
    pub body_type: u32,
    pub bits: u64,
}

impl From<value::BodyValue> for BodyValue {
    #[inline]
    fn from(value: value::BodyValue) -> Self {
        Self { body_type: value.body_type(), bits: value.bits() }
    }
}

layout! {
    ValueRead: 32 { refusal: 0, value: 16 };
    BodyValue: 16 { body_type: 0, bits: 8 };
}

extern "C" {
    fn ugb_read_value(s: *const u8, s_length: usize, security_first: First) -> ValueRead;
    fn ugb_value_of(body_type: u32, body: *const u8, body_length: usize) -> ValueRead;
    fn ugb_write_value(value: BodyValue, out: *mut u8, out_length: usize) -> Output;
}

#[inline]
pub(crate) fn read_value(s: &[u8], first: First) -> ValueRead {
    // SAFETY: pointer and length are those of a slice.
    unsafe { ugb_read_value(s.as_ptr(), s.len(), first) }
}

#[inline]
pub(crate) fn value_of(body_type: u32, body: &[u8]) -> ValueRead {
    // SAFETY: pointer and length are those of a slice.
    unsafe { ugb_value_of(body_type, body.as_ptr(), body.len()) }
}

#[inline]
pub(crate) fn write_value(value: BodyValue, out: &mut [u8]) -> Output {
    // SAFETY: pointer and length are those of a slice, which is borrowed alone.
    unsafe { ugb_write_value(value, out.as_mut_ptr(), out.len()) }
}
