//! The properties of a message, made from a request or from a section.

use super::section::Section;

/// A number that may be absent.
#[repr(C)]
#[derive(Clone, Copy)]
pub(crate) struct Number {
    given: bool,
    number: u32,
}

impl From<Number> for Option<u32> {
    #[inline]
    fn from(number: Number) -> Self {
        number.given.then_some(number.number)
    }
}

#[repr(C)]
pub(crate) struct Handling {
    pub known: bool,
    pub priority: u32,
    pub trace: u32,
    pub delivery: u32,
    pub auditing: u32,
    pub transaction: bool,
    pub direct_queue: bool,
    pub split_number: Number,
    pub provider_name_length: u32,
    pub time_to_queue: u32,
    pub time_to_live: u32,
}

#[repr(C)]
pub(crate) struct Sender {
    pub known: bool,
    pub kind: u32,
    pub default_provider: bool,
    pub encryption: bool,
}

#[repr(C)]
pub(crate) struct Privacy {
    pub packet: bool,
    pub level: u32,
}

#[repr(C)]
pub(crate) struct Properties {
    pub handling: Handling,
    pub sender: Sender,
    pub provider_type: Number,
    pub message_class: u32,
    pub acknowledge: u32,
    pub application_tag: u32,
    pub privacy_level: Privacy,
    pub hash_algorithm: u32,
    pub encryption_algorithm: u32,
    pub body_type: u32,
    pub message_size: usize,
    pub allocation_body_size: usize,
    /// In 16-bit units, the first that are kept.
    pub title: u32,
    /// In bytes, the last that are kept.
    pub signature: usize,
}

layout! {
    Number: 8 { given: 0, number: 4 };
    Handling: 44 {
        known: 0, priority: 4, trace: 8, delivery: 12, auditing: 16, transaction: 20, direct_queue: 21,
        split_number: 24, provider_name_length: 32, time_to_queue: 36, time_to_live: 40
    };
    Sender: 12 { known: 0, kind: 4, default_provider: 8, encryption: 9 };
    Privacy: 8 { packet: 0, level: 4 };
    Properties: 128 {
        handling: 0, sender: 44, provider_type: 56, message_class: 64, acknowledge: 68, application_tag: 72,
        privacy_level: 76, hash_algorithm: 84, encryption_algorithm: 88, body_type: 92, message_size: 96,
        allocation_body_size: 104, title: 112, signature: 120
    };
}

extern "C" {
    fn ugb_properties_of(section: Section) -> Properties;
}

#[inline]
pub(crate) fn properties_of(section: Section) -> Properties {
    // SAFETY: it takes a value and no pointer.
    unsafe { ugb_properties_of(section) }
}
