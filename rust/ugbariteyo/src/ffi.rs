//! The C interface, as `include/ugbariteyo.h` declares it. The only module with unsafe code.
//!
//! No function there has a precondition beyond valid pointers: a slice passes as pointer and length, also an
//! empty one, and no pointer is kept after the call.

#![allow(unsafe_code)]

use crate::refusal;

/// Checks sizes and offsets: the layout that the header gives these structs on x86-64.
macro_rules! layout {
    ($($type:ty: $size:literal { $($member:ident: $offset:literal),* };)*) => {
        const _: () = {
            $(
                assert!(size_of::<$type>() == $size);
                $(assert!(std::mem::offset_of!($type, $member) == $offset);)*
            )*
        };
    };
}

/// Declares a function that takes values, then the members of what is lent as parts, each with its length, then
/// maybe an output; and the call of it.
macro_rules! with_parts {
    (
        $name:ident = $symbol:ident(
            $lent:ident: $type:ty; $($value:expr => $by_value:ty),*; $($part:ident: $unit:ty),* $(; $out:ident)?
        ) -> $answer:ty
    ) => {
        #[allow(improper_ctypes)] // an `Option` that was checked to lie as in C
        extern "C" {
            fn $symbol(
                $(_: $by_value,)* $($part: *const $unit, _: usize,)* $($out: *mut u8, _: usize)?
            ) -> $answer;
        }

        #[inline]
        pub(crate) fn $name($lent: $type $(, $out: &mut [u8])?) -> $answer {
            $(let $part: &[$unit] = $crate::ffi::Lent::lent(&$lent.$part);)*
            // SAFETY: pointers and lengths are those of slices, and an output is borrowed alone.
            unsafe {
                $symbol(
                    $($value,)* $($part.as_ptr(), $part.len(),)* $($out.as_mut_ptr(), $out.len())?
                )
            }
        }
    };
}

/// A part that is lent.
trait Lent<T> {
    fn lent(&self) -> &[T];
}

impl<T> Lent<T> for &[T] {
    #[inline]
    fn lent(&self) -> &[T] {
        self
    }
}

mod day;
mod field;
mod portions;
mod properties;
mod queue;
mod record;
mod request;
mod section;
mod value;
mod write;

pub(crate) use day::read_day;
pub(crate) use field::{refused_field, Field};
pub(crate) use portions::{Portions, Summarized};
pub(crate) use properties::{properties_of, Handling, Privacy, Properties, Sender};
pub(crate) use queue::{read_image, write_image, QueueFormat};
pub(crate) use record::{next_record, Record};
pub(crate) use request::{defaulted, send};
pub(crate) use section::{
    is_support_copy, label_shown, read, same_summary, support_copy, PropertiesFields, PropertiesParts,
    Reading, SecurityHeader, Summary,
};
pub(crate) use value::{read_value, value_of, write_value, ValueRead};
pub(crate) use write::write_section;

#[repr(C)]
#[derive(Clone, Copy, PartialEq, Eq, Hash, Default)]
pub(crate) struct Refusal {
    pub number: u32,
    pub place: usize,
}

#[repr(C)]
#[derive(Clone, Copy)]
pub(crate) struct Part {
    pub start: usize,
    pub length: usize,
}

#[repr(C)]
pub(crate) struct Output {
    pub refusal: Refusal,
    pub length: usize,
}

layout! {
    Refusal: 16 { number: 0, place: 8 };
    Part: 16 { start: 0, length: 8 };
    Output: 24 { refusal: 0, length: 16 };
}

/// `Ok` where nothing is refused.
#[inline]
pub(crate) fn accepted(refusal: Refusal) -> Result<(), refusal::Refusal> {
    match refusal.number {
        0 => Ok(()),
        number => Err(refusal::Refusal { number, place: refusal.place }),
    }
}

/// The number of bytes written.
#[inline]
pub(crate) fn written(output: Output) -> Result<usize, refusal::Refusal> {
    accepted(output.refusal).map(|()| output.length)
}
