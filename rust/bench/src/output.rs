//! The output that calls write to.

use std::cell::RefCell;
use std::hint::black_box;

use crate::timing::Repeated;

/// The bytes between the places of an output, and how many places there are, over a page: how two buffers lie to each
/// other counts.
const SKIP: usize = 320;
const SKIPS: usize = 16;

/// An output that is lent to one call after the other, at another place in every turn.
pub struct Output {
    bytes: RefCell<Vec<u8>>,
    /// How many bytes are lent.
    pub length: usize,
}

impl Output {
    /// An output of this length.
    pub fn new(length: usize) -> Self {
        Self { bytes: vec![1; length + SKIP * SKIPS].into(), length }
    }

    /// `calls`, which makes so many calls with the output, to be repeated.
    pub fn lent<'a>(&'a self, calls: impl Fn(&mut [u8], u64) + 'a) -> Repeated<'a> {
        let mut turn = 0;
        Box::new(move |times| {
            turn += 1;
            let mut bytes = self.bytes.borrow_mut();
            calls(&mut bytes[SKIP * (turn % SKIPS)..][..self.length], times);
        })
    }

    /// A call whose answer is put into memory, to be repeated.
    pub fn taken<'a, T>(&'a self, call: impl Fn(&mut [u8]) -> T + 'a) -> Repeated<'a> {
        self.lent(move |out, times| {
            for _ in 0..times {
                black_box(&call(out));
            }
        })
    }

    /// A call that must not be refused, to be repeated.
    pub fn written<'a, T, E>(&'a self, call: impl Fn(&mut [u8]) -> Result<T, E> + 'a) -> Repeated<'a> {
        self.lent(move |out, times| {
            for _ in 0..times {
                assert!(call(out).is_ok());
            }
        })
    }

    /// memcpy to the whole output, to be repeated.
    pub fn memcpy(&self) -> Repeated<'_> {
        let from = vec![1; self.length];
        self.lent(move |mut out, times| {
            for _ in 0..times {
                black_box(&mut out).copy_from_slice(&from);
            }
        })
    }

    /// memset of the whole output, to be repeated.
    pub fn memset(&self) -> Repeated<'_> {
        self.lent(|mut out, times| {
            for _ in 0..times {
                black_box(&mut out).fill(0);
            }
        })
    }
}
