//! Send requests.

use std::mem::{offset_of, transmute, MaybeUninit};
use std::ptr;

use super::properties::Properties;
use super::{Lent, Refusal};
use crate::request::{Body, Request};
use crate::section::First;

/// The first members of `ugb_request`: the numbers that may be absent.
#[repr(C)]
#[derive(Clone, Copy)]
struct Numbers([Option<u32>; 14]);

/// Its other members. Passed by value behind the first, they lie as the whole does.
#[repr(C)]
struct Marks {
    provider_name_length: u32,
    time_to_queue: u32,
    time_to_live: u32,
    correlation_id: Option<[u8; 20]>,
    body_given: bool,
    allocation_body_size: usize,
    transaction: bool,
    direct_queue: bool,
    default_provider: bool,
    encryption: bool,
}

#[repr(C)]
pub(crate) struct Defaulted {
    pub refusal: Refusal,
    pub properties: Properties,
    pub correlation_id: [u8; 20],
}

#[repr(C)]
pub(crate) struct Sent {
    pub refusal: Refusal,
    pub length: usize,
    pub security_first: First,
}

layout! {
    Numbers: 112 {};
    Marks: 56 {
        provider_name_length: 0, time_to_queue: 4, time_to_live: 8, correlation_id: 12, body_given: 33,
        allocation_body_size: 40, transaction: 48, direct_queue: 49, default_provider: 50, encryption: 51
    };
    Defaulted: 168 { refusal: 0, properties: 16, correlation_id: 144 };
    Sent: 32 { refusal: 0, length: 16, security_first: 24 };
}

/// A value that may be absent, in a request.
#[repr(C)]
struct Given<T> {
    given: bool,
    value: MaybeUninit<T>,
}

// An `Option` in a request lies as that does. It is the compiler's own affair how, so it is checked.
// SAFETY: sizes are equal, and bytes that are looked at are set, or this does not compile.
const _: () = unsafe {
    let absent: Given<u32> = transmute(None::<u32>);
    let given: Given<u32> = transmute(Some(0x1234_5678_u32));
    assert!(!absent.given && given.given && given.value.assume_init() == 0x1234_5678);
    let absent: Given<[u8; 20]> = transmute(None::<[u8; 20]>);
    let given: Given<[u8; 20]> = transmute(Some([7_u8; 20]));
    let [first, .., last] = given.value.assume_init();
    assert!(!absent.given && given.given && first == 7 && last == 7);
};

/// Checks that a request begins with these numbers, in this order.
macro_rules! numbers_first {
    ($($number:ident)*) => {
        const _: () = {
            let offsets = [$(offset_of!(Request<'_>, $number)),*];
            let mut i = 0;
            while i < offsets.len() {
                assert!(offsets[i] == i * size_of::<Option<u32>>());
                i += 1;
            }
            assert!(size_of::<Numbers>() == offsets.len() * size_of::<Option<u32>>());
        };
    };
}

numbers_first! {
    priority trace delivery auditing message_class acknowledge application_tag privacy_level hash_algorithm
    encryption_algorithm body_type sender_kind provider_type split_number
}

/// The numbers of a request, which stand first in it.
#[inline]
fn numbers(request: &Request<'_>) -> Numbers {
    // SAFETY: `numbers_first` checks that they do.
    unsafe { ptr::from_ref(request).cast::<Numbers>().read() }
}

impl From<&Request<'_>> for Marks {
    #[inline]
    fn from(request: &Request<'_>) -> Self {
        Self {
            provider_name_length: request.provider_name_length,
            time_to_queue: request.time_to_queue,
            time_to_live: request.time_to_live,
            correlation_id: request.correlation_id,
            body_given: request.body.is_some(),
            allocation_body_size: request.body.unwrap_or_default().allocation,
            transaction: request.transaction,
            direct_queue: request.direct_queue,
            default_provider: request.default_provider,
            encryption: request.encryption,
        }
    }
}

impl Lent<u8> for Option<Body<'_>> {
    #[inline]
    fn lent(&self) -> &[u8] {
        self.unwrap_or_default().bytes
    }
}

macro_rules! of_a_request {
    ($name:ident = $symbol:ident($($out:ident)?) -> $answer:ty) => {
        with_parts! {
            $name = $symbol(
                request: &Request<'_>;
                numbers(request) => Numbers, Marks::from(request) => Marks;
                title: u16, sender_id: u8, encryption_key: u8, signature: u8, sender_cert: u8,
                provider_name: u16, extension: u8, body: u8
                $(; $out)?
            ) -> $answer
        }
    };
}

of_a_request! { defaulted = ugb_defaulted_positional() -> Defaulted }
of_a_request! { send = ugb_send_positional(out) -> Sent }
