//! What a side holds of a section that comes in portions.

use crate::side::{Answer, Call, Portions, Summary};

/// A side's state, and its calls.
pub struct Held<S> {
    /// The state.
    pub state: S,
    /// Takes the next bytes.
    pub portion: fn(&mut S, &[u8]) -> Answer<()>,
    /// Finishes.
    pub finish: fn(&mut S) -> Answer<Summary<'_>>,
}

impl<S: Clone + PartialEq> Portions for Held<S> {
    fn portion(&mut self, bytes: &[u8]) -> Answer<()> {
        (self.portion)(&mut self.state, bytes)
    }
    fn finish(&mut self) -> Answer<Summary<'_>> {
        (self.finish)(&mut self.state)
    }
    fn stays(&self, call: Call<&[u8]>) -> bool {
        let mut copy = Self { state: self.state.clone(), ..*self };
        let _ = copy.call(call);
        copy.state == self.state
    }
}
