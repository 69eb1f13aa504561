//! A section in portions.

use super::{Refusal, Summary};
use crate::section::First;

/// What is counted and judged: the first three numbers are whether a SecurityHeader stands first, whether it was
/// finished, and how many bytes came.
type Counters = [usize; 10];

#[repr(C)]
#[derive(Clone, PartialEq, Eq, Hash)]
pub(crate) struct Portions {
    pub counters: Counters,
    head: [u8; 18],
    provider_type: [u8; 4],
    pub properties: [u8; 556],
}

#[repr(C)]
pub(crate) struct Summarized {
    pub refusal: Refusal,
    pub summary: Summary,
}

layout! {
    Portions: 664 { counters: 0, head: 80, provider_type: 98, properties: 102 };
    Summarized: 288 { refusal: 0, summary: 16 };
}

extern "C" {
    fn ugb_start(security_first: First) -> Portions;
    fn ugb_portion_positional(
        counters: &mut Counters,
        head: &mut [u8; 18],
        provider_type: &mut [u8; 4],
        properties: &mut [u8; 556],
        bytes: *const u8,
        length: usize,
    ) -> Refusal;
    fn ugb_finish_positional(
        counters: &mut Counters,
        head: &[u8; 18],
        provider_type: &[u8; 4],
        properties: &[u8; 556],
    ) -> Summarized;
}

impl Portions {
    #[inline]
    pub fn start(first: First) -> Self {
        // SAFETY: it takes a value and no pointer.
        unsafe { ugb_start(first) }
    }

    #[inline]
    pub fn portion(&mut self, bytes: &[u8]) -> Refusal {
        // SAFETY: pointer and length are those of a slice, and the state is borrowed alone.
        unsafe {
            ugb_portion_positional(
                &mut self.counters,
                &mut self.head,
                &mut self.provider_type,
                &mut self.properties,
                bytes.as_ptr(),
                bytes.len(),
            )
        }
    }

    #[inline]
    pub fn finish(&mut self) -> Summarized {
        // SAFETY: the state is borrowed alone.
        unsafe {
            ugb_finish_positional(&mut self.counters, &self.head, &self.provider_type, &self.properties)
        }
    }
}
