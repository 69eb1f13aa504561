//! The records of a day's file.

use super::{Part, Refusal};
use crate::section::First;

#[repr(C)]
pub(crate) struct Record {
    pub next: u32,
    pub size: usize,
    pub security_first: First,
    pub section: Part,
    pub refusal: Refusal,
    pub message_class: u16,
    /// In 16-bit units.
    pub label_length: u32,
    pub extension_size: usize,
    pub message_size: usize,
    pub section_length: usize,
}

layout! {
    Record: 88 {
        next: 0, size: 8, security_first: 16, section: 24, refusal: 40, message_class: 56, label_length: 60,
        extension_size: 64, message_size: 72, section_length: 80
    };
}

impl Record {
    /// `next` where the file ends.
    pub const END: u32 = 0;
    /// `next` where a record was found.
    pub const FOUND: u32 = 2;
}

extern "C" {
    fn ugb_next_record(s: *const u8, s_length: usize) -> Record;
}

#[inline]
pub(crate) fn next_record(s: &[u8]) -> Record {
    // SAFETY: pointer and length are those of a slice.
    unsafe { ugb_next_record(s.as_ptr(), s.len()) }
}
