//! Times of calls: the best of many short runs, in which the calls take turns.

use std::fmt;
use std::hint::black_box;
use std::time::Instant;

/// The rounds in which every call has its turn.
const ROUNDS: usize = 100;
/// How long a turn is, in nanoseconds: so short that many are not disturbed.
const TURN: f64 = 5e5;

/// A call that can be repeated so many times.
pub type Repeated<'a> = Box<dyn FnMut(u64) + 'a>;

/// A call whose answer is put into memory, to be repeated.
pub fn taken<'a, T>(call: impl Fn() -> T + 'a) -> Repeated<'a> {
    Box::new(move |times| {
        for _ in 0..times {
            black_box(&call());
        }
    })
}

/// The best time of each call, in nanoseconds.
pub fn best(mut calls: Vec<Repeated<'_>>) -> Vec<f64> {
    let times: Vec<_> = calls.iter_mut().map(times_in_a_turn).collect();
    let mut best = vec![f64::INFINITY; calls.len()];
    for round in 0..ROUNDS {
        // how the stack lies to a cache line and to the buffers in a page counts
        let turn = [deeper::<16>, deeper::<1_056>, deeper::<2_096>, deeper::<3_136>][round % 4];
        let mut in_turn: Vec<_> = calls.iter_mut().zip(&times).zip(&mut best).collect();
        // and what the call before left in the caches, which is another one the other way round
        if round / 4 % 2 == 1 {
            in_turn.reverse();
        }
        for ((call, &times), best) in in_turn {
            *best = best.min(turn(call, times) / times as f64);
        }
    }
    best
}

/// How often a call is repeated in a turn. Finding out touches every buffer first.
fn times_in_a_turn(call: &mut Repeated<'_>) -> u64 {
    let mut times = 1;
    loop {
        let elapsed = elapsed(call, times);
        if elapsed >= TURN / 2.0 {
            return ((times as f64 * TURN / elapsed) as u64).max(1);
        }
        times *= 2;
    }
}

/// The time with so many bytes more on the stack.
#[inline(never)]
fn deeper<const BYTES: usize>(call: &mut Repeated<'_>, times: u64) -> f64 {
    let mut bytes = [0_u8; BYTES];
    black_box(&mut bytes);
    let elapsed = elapsed(call, times);
    black_box(&mut bytes);
    elapsed
}

/// The time of so many calls, after one that finds the caches as the turn before left them.
fn elapsed(call: &mut Repeated<'_>, times: u64) -> f64 {
    call(1);
    let start = Instant::now();
    call(times);
    start.elapsed().as_nanos() as f64
}

/// A time in nanoseconds, with a digit behind the point where it is short.
pub struct Time(pub f64);

impl fmt::Display for Time {
    fn fmt(&self, f: &mut fmt::Formatter<'_>) -> fmt::Result {
        if self.0 < 100.0 {
            write!(f, "{:.1}", self.0)
        } else {
            write!(f, "{:.0}", self.0)
        }
    }
}
