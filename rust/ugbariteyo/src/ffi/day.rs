//! A day's file in a single call.

use super::Refusal;
use crate::day::DaySlot;

#[repr(C)]
pub(crate) struct Day {
    pub refusal: Refusal,
    pub records: usize,
}

layout! {
    DaySlot: 56 {
        refusal: 0, message_class: 16, label_length: 24, extension_size: 32, message_size: 40, section_length: 48
    };
    Day: 24 { refusal: 0, records: 16 };
}

extern "C" {
    fn ugb_read_day(file: *const u8, file_length: usize, table: *mut DaySlot, slots: usize) -> Day;
}

#[inline]
pub(crate) fn read_day(file: &[u8], table: &mut [DaySlot]) -> Day {
    // SAFETY: pointers and lengths are those of slices, the table is borrowed alone, and any numbers make a slot.
    unsafe { ugb_read_day(file.as_ptr(), file.len(), table.as_mut_ptr(), table.len()) }
}
