//! Reading a section, its support copy, and the check of one.

use super::{Output, Part, Refusal};
use crate::section::First;

#[repr(C)]
#[derive(Clone, Copy)]
pub(crate) struct SecurityFields {
    pub flags: u32,
    pub sender_id_size: usize,
    pub encryption_key_size: usize,
    pub signature_size: usize,
    pub sender_cert_size: usize,
    pub provider_info_size: usize,
}

#[repr(C)]
#[derive(Clone, Copy)]
pub(crate) struct SecurityParts {
    pub sender_id: Part,
    pub encryption_key: Part,
    pub signature: Part,
    pub sender_cert: Part,
    pub provider_info: Part,
    pub length: usize,
}

#[repr(C)]
#[derive(Clone, Copy)]
pub(crate) struct SecurityHeader {
    pub fields: SecurityFields,
    pub parts: SecurityParts,
    pub sid_revision: u8,
    pub sid_sub_authority_count: u8,
    pub provider_type: u32,
}

impl SecurityHeader {
    /// The provider's type, where there is provider info.
    #[inline]
    pub fn given_type(&self) -> Option<u32> {
        (self.parts.provider_info.length != 0).then_some(self.provider_type)
    }
}

#[repr(C)]
#[derive(Clone, Copy)]
pub(crate) struct PropertiesFields {
    pub flags: u8,
    /// In 16-bit units.
    pub label_length: u32,
    pub message_class: u16,
    pub body_type: u32,
    pub message_size: usize,
    pub allocation_body_size: usize,
    pub privacy_level: u32,
    pub hash_algorithm: u32,
    pub encryption_algorithm: u32,
    pub extension_size: usize,
}

#[repr(C)]
#[derive(Clone, Copy)]
pub(crate) struct PropertiesParts {
    pub label: Part,
    pub extension: Part,
    pub body: Part,
    pub section_length: usize,
}

#[repr(C)]
#[derive(Clone, Copy)]
pub(crate) struct Summary {
    pub security_first: First,
    pub security: SecurityHeader,
    pub properties: PropertiesFields,
    pub parts: PropertiesParts,
    pub authentication_fails: bool,
    pub decryption_fails: bool,
    pub retired: bool,
}

#[repr(C)]
#[derive(Clone, Copy)]
pub(crate) struct Section {
    pub summary: Summary,
    pub correlation_id: Part,
    pub application_tag: u32,
}

#[repr(C)]
#[derive(Clone, Copy)]
pub(crate) struct Reading {
    pub refusal: Refusal,
    pub section: Section,
}

#[repr(C)]
pub(crate) struct Label {
    pub stand_in: bool,
    pub part: Part,
}

layout! {
    SecurityFields: 48 { flags: 0, sender_id_size: 8, provider_info_size: 40 };
    SecurityParts: 88 { sender_id: 0, provider_info: 64, length: 80 };
    SecurityHeader: 144 { fields: 0, parts: 48, sid_revision: 136, provider_type: 140 };
    PropertiesFields: 56 {
        flags: 0, label_length: 4, message_class: 8, body_type: 12, message_size: 16, allocation_body_size: 24,
        privacy_level: 32, hash_algorithm: 36, encryption_algorithm: 40, extension_size: 48
    };
    PropertiesParts: 56 { label: 0, extension: 16, body: 32, section_length: 48 };
    Summary: 272 {
        security_first: 0, security: 8, properties: 152, parts: 208, authentication_fails: 264, decryption_fails: 265,
        retired: 266
    };
    Section: 296 { summary: 0, correlation_id: 272, application_tag: 288 };
    Reading: 312 { refusal: 0, section: 16 };
    Label: 24 { stand_in: 0, part: 8 };
}

extern "C" {
    fn ugb_read(s: *const u8, s_length: usize, security_first: First) -> Reading;
    fn ugb_same_summary(
        a: *const u8,
        a_length: usize,
        b: *const u8,
        b_length: usize,
        security_first: First,
    ) -> bool;
    fn ugb_label_shown(s: *const u8, s_length: usize, security_first: First) -> Label;
    fn ugb_support_copy(
        s: *const u8,
        s_length: usize,
        security_first: First,
        out: *mut u8,
        out_length: usize,
    ) -> Output;
    fn ugb_is_support_copy(
        s: *const u8,
        s_length: usize,
        security_first: First,
        copy: *const u8,
        copy_length: usize,
    ) -> bool;
}

#[inline]
pub(crate) fn read(s: &[u8], first: First) -> Reading {
    // SAFETY: pointer and length are those of a slice.
    unsafe { ugb_read(s.as_ptr(), s.len(), first) }
}

#[inline]
pub(crate) fn same_summary(a: &[u8], b: &[u8], first: First) -> bool {
    // SAFETY: pointers and lengths are those of two slices.
    unsafe { ugb_same_summary(a.as_ptr(), a.len(), b.as_ptr(), b.len(), first) }
}

#[inline]
pub(crate) fn label_shown(s: &[u8], first: First) -> Label {
    // SAFETY: pointer and length are those of a slice.
    unsafe { ugb_label_shown(s.as_ptr(), s.len(), first) }
}

#[inline]
pub(crate) fn support_copy(s: &[u8], first: First, out: &mut [u8]) -> Output {
    // SAFETY: pointers and lengths are those of slices, and `out` is borrowed alone.
    unsafe { ugb_support_copy(s.as_ptr(), s.len(), first, out.as_mut_ptr(), out.len()) }
}

#[inline]
pub(crate) fn is_support_copy(s: &[u8], first: First, copy: &[u8]) -> bool {
    // SAFETY: pointers and lengths are those of two slices.
    unsafe { ugb_is_support_copy(s.as_ptr(), s.len(), first, copy.as_ptr(), copy.len()) }
}
