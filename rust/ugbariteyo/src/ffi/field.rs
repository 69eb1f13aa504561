//! The field at a place.

use super::Refusal;
use crate::section::First;

#[repr(C)]
pub(crate) struct Field {
    pub field: u32,
    pub offset: usize,
}

layout! {
    Field: 16 { field: 0, offset: 8 };
}

extern "C" {
    fn ugb_refused_field(s: *const u8, s_length: usize, security_first: First, refusal: Refusal) -> Field;
}

#[inline]
pub(crate) fn refused_field(s: &[u8], first: First, number: u32, place: usize) -> Field {
    // SAFETY: pointer and length are those of a slice.
    unsafe { ugb_refused_field(s.as_ptr(), s.len(), first, Refusal { number, place }) }
}
