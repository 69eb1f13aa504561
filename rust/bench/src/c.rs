//! Calls made from C: the library's and the tuned ones, in loops; and whether the tuned ones answer as the library's.
//! The only file with unsafe code.

#![allow(unsafe_code)]

use std::ffi::c_void;
use std::marker::PhantomData;
use std::ptr;

use ugbariteyo::{DaySlot, First, SectionValues};

/// Bytes that are lent.
#[repr(C)]
pub struct Bytes<'a> {
    first: *const u8,
    length: usize,
    lent: PhantomData<&'a [u8]>,
}

impl<'a> From<&'a [u8]> for Bytes<'a> {
    fn from(bytes: &'a [u8]) -> Self {
        Self { first: bytes.as_ptr(), length: bytes.len(), lent: PhantomData }
    }
}

/// A section to read.
#[repr(C)]
pub struct Section<'a> {
    bytes: Bytes<'a>,
    /// In C a bool: whether a SecurityHeader stands first.
    first: First,
}

impl<'a> Section<'a> {
    /// The section at the start of `bytes`.
    pub fn new(bytes: &'a [u8], first: First) -> Self {
        Self { bytes: bytes.into(), first }
    }
}

/// A section, and what may be its support copy.
#[repr(C)]
pub struct Copied<'a> {
    section: Section<'a>,
    copy: Bytes<'a>,
}

impl<'a> Copied<'a> {
    /// The section at the start of `bytes`, and this copy.
    pub fn new(bytes: &'a [u8], first: First, copy: &'a [u8]) -> Self {
        Self { section: Section::new(bytes, first), copy: copy.into() }
    }
}

/// What a section is written from.
#[repr(C)]
pub struct Given<'a> {
    /// The numbers stand first in the values, and lie as in C.
    values: *const c_void,
    parts: [Bytes<'a>; 8],
}

impl<'a> Given<'a> {
    /// These values and their parts.
    pub fn new(values: &'a SectionValues<'a>) -> Self {
        let parts = [
            values.sender_id,
            values.encryption_key,
            values.signature,
            values.sender_cert,
            values.provider_info,
            values.label,
            values.extension,
            values.body,
        ];
        Self { values: ptr::from_ref(values).cast(), parts: parts.map(Bytes::from) }
    }
}

/// What an image is written from.
#[repr(C)]
pub struct GivenImage<'a> {
    format: [u8; 2],
    fixed: Bytes<'a>,
    text: Bytes<'a>,
}

impl<'a> GivenImage<'a> {
    /// This type with its suffix and flags, and the two parts of its value.
    pub fn new(format: [u8; 2], fixed: &'a [u8], text: &'a [u8]) -> Self {
        Self { format, fixed: fixed.into(), text: text.into() }
    }
}

/// A day's file, and the table that it is read into.
#[repr(C)]
pub struct Day<'a> {
    file: Bytes<'a>,
    table: *mut DaySlot,
    slots: usize,
    lent: PhantomData<&'a mut [DaySlot]>,
}

impl<'a> Day<'a> {
    /// This file and this table.
    pub fn new(file: &'a [u8], table: &'a mut [DaySlot]) -> Self {
        Self { file: file.into(), table: table.as_mut_ptr(), slots: table.len(), lent: PhantomData }
    }
}

/// The portions in which a section comes.
#[repr(C)]
pub struct Portioned<'a> {
    portions: *const Bytes<'a>,
    count: usize,
    first: First,
    lent: PhantomData<&'a [Bytes<'a>]>,
}

impl<'a> Portioned<'a> {
    /// These portions of a section.
    pub fn new(portions: &'a [Bytes<'a>], first: First) -> Self {
        Self { portions: portions.as_ptr(), count: portions.len(), first, lent: PhantomData }
    }
}

/// What a call takes that makes its own request.
#[repr(C)]
pub struct Nothing(u8);

impl Nothing {
    /// It.
    pub const LENT: Self = Self(0);
}

macro_rules! loops {
    ($($name:ident($lent:ty) = $symbol:ident;)*) => {
        extern "C" {
            $(fn $symbol(lent: &$lent, out: *mut u8, out_length: usize, times: u64);)*
        }
        $(
            /// Makes the call so many times.
            pub fn $name(lent: &$lent, out: &mut [u8], times: u64) {
                // SAFETY: what is lent was made from slices; a table in it, and the output, are borrowed alone.
                unsafe { $symbol(lent, out.as_mut_ptr(), out.len(), times) }
            }
        )*
    };
}

loops! {
    read(Section<'_>) = loop_read;
    summarize(Section<'_>) = loop_summarize;
    same_summary(Section<'_>) = loop_same_summary;
    label_shown(Section<'_>) = loop_label_shown;
    support_copy(Section<'_>) = loop_support_copy;
    is_support_copy(Copied<'_>) = loop_is_support_copy;
    write_section(Given<'_>) = loop_write_section;
    send(Nothing) = loop_send;
    defaulted(Nothing) = loop_defaulted;
    read_image(Bytes<'_>) = loop_read_image;
    write_image(GivenImage<'_>) = loop_write_image;
    read_day(Day<'_>) = loop_read_day;
    portions(Portioned<'_>) = loop_portions;
    read_value(Section<'_>) = loop_read_value;
    tuned_read(Section<'_>) = loop_tuned_read;
    tuned_support_copy(Section<'_>) = loop_tuned_support_copy;
    tuned_is_support_copy(Copied<'_>) = loop_tuned_is_support_copy;
    tuned_write_section(Given<'_>) = loop_tuned_write_section;
    tuned_read_image(Bytes<'_>) = loop_tuned_read_image;
    tuned_write_image(GivenImage<'_>) = loop_tuned_write_image;
    tuned_read_day(Day<'_>) = loop_tuned_read_day;
    tuned_portions(Portioned<'_>) = loop_tuned_portions;
    tuned_read_value(Section<'_>) = loop_tuned_read_value;
}

extern "C" {
    fn reads_agree(section: &Section<'_>) -> bool;
    fn values_agree(section: &Section<'_>) -> bool;
    fn copies_agree(section: &Section<'_>, out: *mut u8, tuned_out: *mut u8, length: usize) -> bool;
    fn checks_agree(copied: &Copied<'_>) -> bool;
    fn writings_agree(given: &Given<'_>, out: *mut u8, tuned_out: *mut u8, length: usize) -> bool;
    fn image_reads_agree(image: &Bytes<'_>) -> bool;
    fn image_writings_agree(given: &GivenImage<'_>, out: *mut u8, tuned_out: *mut u8, length: usize) -> bool;
    fn days_agree(day: &Day<'_>, tuned_table: *mut DaySlot) -> bool;
    fn portions_agree(portions: &Portioned<'_>, whole: &Section<'_>) -> bool;
}

impl Section<'_> {
    /// Whether the tuned reading is the library's, and so is the tuned support copy into outputs of this length.
    pub fn agrees(&self, length: usize) -> bool {
        let [mut out, mut tuned_out] = [vec![0; length], vec![0; length]];
        // SAFETY: as for the loops.
        unsafe { reads_agree(self) && copies_agree(self, out.as_mut_ptr(), tuned_out.as_mut_ptr(), length) }
    }

    /// Whether the tuned reading of the body's number is the library's.
    pub fn value_agrees(&self) -> bool {
        // SAFETY: as for the loops.
        unsafe { values_agree(self) }
    }
}

impl Copied<'_> {
    /// Whether the tuned check is the library's.
    pub fn agrees(&self) -> bool {
        // SAFETY: as for the loops.
        unsafe { checks_agree(self) }
    }
}

impl Given<'_> {
    /// Whether the tuned writing into an output of this length is the library's.
    pub fn agrees(&self, length: usize) -> bool {
        let [mut out, mut tuned_out] = [vec![0; length], vec![0; length]];
        // SAFETY: as for the loops.
        unsafe { writings_agree(self, out.as_mut_ptr(), tuned_out.as_mut_ptr(), length) }
    }
}

impl Bytes<'_> {
    /// Whether the tuned reading of these bytes as an image is the library's.
    pub fn image_agrees(&self) -> bool {
        // SAFETY: as for the loops.
        unsafe { image_reads_agree(self) }
    }
}

impl GivenImage<'_> {
    /// Whether the tuned writing into an output of this length is the library's.
    pub fn agrees(&self, length: usize) -> bool {
        let [mut out, mut tuned_out] = [vec![0; length], vec![0; length]];
        // SAFETY: as for the loops.
        unsafe { image_writings_agree(self, out.as_mut_ptr(), tuned_out.as_mut_ptr(), length) }
    }
}

impl Day<'_> {
    /// Whether the tuned reading into another table of as many slots is the library's.
    pub fn agrees(&self) -> bool {
        let mut tuned_table = vec![DaySlot::default(); self.slots];
        // SAFETY: as for the loops; any bytes make a slot.
        unsafe { days_agree(self, tuned_table.as_mut_ptr()) }
    }
}

impl Portioned<'_> {
    /// Whether the library and the tuned calls answer as the library does to `whole`, the portions joined.
    pub fn agrees(&self, whole: &Section<'_>) -> bool {
        // SAFETY: as for the loops.
        unsafe { portions_agree(self, whole) }
    }
}

#[cfg(test)]
mod tests {
    use super::{Bytes, Copied, Day, Given, GivenImage, Portioned, Section};
    use compare::library::{first, section_values};
    use independent::generate::{case, day_table, image, image_values, section_values as generated_values};
    use independent::generate::{portions_case, value_case, Call, DayTable, Random};
    use independent::queue::HEAD;
    use ugbariteyo::{support_copy_vec, DaySlot};

    const CASES: u64 = 20_000;

    #[test]
    fn tuned_reading_and_copy_agree() {
        let mut r = Random::new(1);
        for _ in 0..CASES {
            let case = case(&mut r);
            for security_first in [case.security_first, !case.security_first] {
                let read = independent::read(&case.bytes, security_first);
                let length = read.map_or(100, |section| section.summary.length);
                let section = Section::new(&case.bytes, first(security_first));
                let agrees = [length + 9, length, length - 1].map(|length| section.agrees(length));
                assert_eq!(agrees, [true; 3], "security first {security_first}, {:02X?}", case.bytes);
            }
        }
    }

    #[test]
    fn tuned_check_agrees() {
        let mut r = Random::new(5);
        for _ in 0..CASES {
            let case = case(&mut r);
            let (bytes, first) = (&case.bytes, first(case.security_first));
            // of a refused section, its own bytes
            let mut copy = support_copy_vec(bytes, first).unwrap_or_else(|_| bytes.clone());
            let agrees = |copy: &[u8]| {
                assert!(Copied::new(bytes, first, copy).agrees(), "{first:?}, {bytes:02X?}, {copy:02X?}");
            };
            agrees(&copy);
            agrees(bytes);
            agrees(&copy[..copy.len().saturating_sub(1)]);
            for at in 0..copy.len().min(1_000) {
                let bit = 1 << r.below(8);
                copy[at] ^= bit;
                agrees(&copy);
                copy[at] ^= bit;
            }
            copy.push(0);
            agrees(&copy);
        }
    }

    #[test]
    fn tuned_writing_agrees() {
        let mut r = Random::new(2);
        for _ in 0..CASES {
            let owned = generated_values(&mut r);
            let values = owned.as_values();
            let values = section_values(&values);
            let given = Given::new(&values);
            let agrees = [owned.room, owned.length(), owned.length() - 1].map(|length| given.agrees(length));
            assert_eq!(agrees, [true; 3], "{owned:02X?}");
        }
    }

    #[test]
    fn tuned_image_reading_agrees() {
        let mut r = Random::new(3);
        for _ in 0..CASES {
            let image = image(&mut r);
            assert!(Bytes::from(&image[..]).image_agrees(), "{image:02X?}");
        }
    }

    #[test]
    fn tuned_image_writing_agrees() {
        let mut r = Random::new(4);
        for _ in 0..CASES {
            let values = image_values(&mut r);
            let given = GivenImage::new([values.kind, values.suffix_and_flags], &values.fixed, &values.text);
            let length = HEAD + values.fixed.len() + values.text.len();
            let agrees = [values.room, length, length - 1].map(|length| given.agrees(length));
            assert_eq!(agrees, [true; 3], "{values:02X?}");
        }
    }

    #[test]
    fn tuned_day_reading_agrees() {
        let mut r = Random::new(6);
        for _ in 0..CASES {
            let DayTable { file, slots } = day_table(&mut r);
            let mut table = vec![DaySlot::default(); slots];
            assert!(Day::new(&file, &mut table).agrees(), "{slots} slots, {file:02X?}");
        }
    }

    #[test]
    fn tuned_portions_agree() {
        let mut r = Random::new(7);
        for _ in 0..CASES {
            let case = portions_case(&mut r);
            let portions: Vec<_> = case
                .calls()
                .map_while(|call| match call {
                    Call::Portion(bytes) => Some(Bytes::from(bytes)),
                    Call::Finish => None,
                })
                .collect();
            let joined = &case.bytes[..portions.iter().map(|portion| portion.length).sum()];
            let first = first(case.security_first);
            let agrees = Portioned::new(&portions, first).agrees(&Section::new(joined, first));
            assert!(agrees, "{first:?}, {:?}, {joined:02X?}", case.calls);
        }
    }

    #[test]
    fn tuned_value_reading_agrees() {
        let mut r = Random::new(8);
        for _ in 0..CASES {
            let case = value_case(&mut r);
            for first in [false, true].map(first) {
                assert!(Section::new(&case.bytes, first).value_agrees(), "{first:?}, {:02X?}", case.bytes);
            }
        }
    }

    #[test]
    fn tuned_images_agree_on_every_format() {
        const FIXED: [u8; 20] = [1; 20];
        for format in (0..=u16::MAX).map(u16::to_le_bytes) {
            for (length, text) in
                [0, 8, 16, 20].into_iter().flat_map(|length| [(length, &b""[..]), (length, b"q\0\0\0")])
            {
                let fixed = &FIXED[..length];
                let image = [&format, &[7, 9], fixed, text].concat();
                assert!(Bytes::from(&image[..]).image_agrees(), "{image:02X?}");
                assert!(GivenImage::new(format, fixed, text).agrees(image.len()), "{image:02X?}");
            }
        }
    }
}
