//! Writing a section.

use std::mem::offset_of;
use std::ptr;

use super::Output;
use crate::section::First;
use crate::write;

#[repr(C)]
struct SectionValues {
    security_first: First,
    security_flags: u16,
    flags: u8,
    message_class: u16,
    body_type: u32,
    application_tag: u32,
    allocation_body_size: usize,
    privacy_level: u32,
    hash_algorithm: u32,
    encryption_algorithm: u32,
    correlation_id: [u8; 20],
}

layout! {
    SectionValues: 56 {
        security_first: 0, security_flags: 2, flags: 4, message_class: 6, body_type: 8, application_tag: 12,
        allocation_body_size: 16, privacy_level: 24, hash_algorithm: 28, encryption_algorithm: 32, correlation_id: 36
    };
}

/// Checks that a section's values begin with these, each in its place.
macro_rules! values_first {
    ($($value:ident)*) => {
        const _: () = {
            assert!(size_of::<write::SectionValues>() >= size_of::<SectionValues>());
            assert!(offset_of!(write::SectionValues, first) == offset_of!(SectionValues, security_first));
            $(assert!(offset_of!(write::SectionValues, $value) == offset_of!(SectionValues, $value));)*
        };
    };
}

values_first! {
    security_flags flags message_class body_type application_tag allocation_body_size privacy_level
    hash_algorithm encryption_algorithm correlation_id
}

/// The values of a section but its parts, which stand first in it.
#[inline]
fn first_values(values: &write::SectionValues<'_>) -> SectionValues {
    // SAFETY: `values_first` checks that they do.
    unsafe { ptr::from_ref(values).cast::<SectionValues>().read() }
}

with_parts! {
    write_section = ugb_write_section_positional(
        values: &write::SectionValues<'_>;
        first_values(values) => SectionValues;
        sender_id: u8, encryption_key: u8, signature: u8, sender_cert: u8, provider_info: u8, label: u8,
        extension: u8, body: u8;
        out
    ) -> Output
}
