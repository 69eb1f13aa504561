//! Queue formats.

use super::{Output, Part, Refusal};

#[repr(C)]
#[derive(Clone, Copy)]
pub(crate) struct QueueFormat {
    pub kind: u8,
    pub suffix_and_flags: u8,
}

#[repr(C)]
pub(crate) struct ImageRead {
    pub refusal: Refusal,
    pub format: QueueFormat,
    pub fixed: Part,
    pub text: Part,
}

layout! {
    QueueFormat: 2 { kind: 0, suffix_and_flags: 1 };
    ImageRead: 56 { refusal: 0, format: 16, fixed: 24, text: 40 };
}

extern "C" {
    fn ugb_read_image(s: *const u8, s_length: usize) -> ImageRead;
    fn ugb_write_image(
        format: QueueFormat,
        fixed: *const u8,
        fixed_length: usize,
        text: *const u8,
        text_length: usize,
        out: *mut u8,
        out_length: usize,
    ) -> Output;
}

#[inline]
pub(crate) fn read_image(s: &[u8]) -> ImageRead {
    // SAFETY: pointer and length are those of a slice.
    unsafe { ugb_read_image(s.as_ptr(), s.len()) }
}

#[inline]
pub(crate) fn write_image(format: QueueFormat, fixed: &[u8], text: &[u8], out: &mut [u8]) -> Output {
    // SAFETY: pointers and lengths are those of slices, and `out` is borrowed alone.
    unsafe {
        ugb_write_image(
            format,
            fixed.as_ptr(),
            fixed.len(),
            text.as_ptr(),
            text.len(),
            out.as_mut_ptr(),
            out.len(),
        )
    }
}
