//! Outputs lent to a writer, and tables to be filled: what stands in them before, and what may have changed after.

use crate::report::{agree, require, Check};
use crate::side::{Answer, Line, Slot};

/// What a writer answered, and the lent bytes afterwards.
#[derive(Debug, PartialEq, Eq)]
pub struct Written {
    /// The length of what was written, or the refusal.
    pub answer: Answer<usize>,
    /// The lent bytes.
    pub out: Vec<u8>,
}

/// Lends `room` bytes with a pattern in them to `write`.
pub fn lend(room: usize, write: impl FnOnce(&mut [u8]) -> Answer<usize>) -> Written {
    let mut out: Vec<u8> = (0..room).map(stood).collect();
    let answer = write(&mut out);
    Written { answer, out }
}

/// The byte that stands at `at` before.
fn stood(at: usize) -> u8 {
    (at as u8).wrapping_mul(37) ^ (at >> 8) as u8 ^ 0x5A
}

impl Written {
    /// "No output byte written" by a refusal; "bytes behind it stay".
    pub fn rest_stays(&self) -> Check {
        let written = self.answer.unwrap_or(0);
        require("the length is within the output", written <= self.out.len())?;
        let stays = self.out[written..].iter().zip(written..).all(|(&byte, at)| byte == stood(at));
        require("the bytes that were not to be written stay", stays)
    }

    /// The bytes that were written.
    pub fn bytes(&self) -> &[u8] {
        &self.out[..self.answer.unwrap_or(0)]
    }

    /// A difference unless exactly `wanted` was written and the rest stays.
    pub fn is(&self, what: &str, wanted: &Answer<&[u8]>) -> Check {
        agree(what, &self.answer, &wanted.map(<[u8]>::len))?;
        agree(what, self.bytes(), wanted.unwrap_or_default())?;
        self.rest_stays()
    }
}

/// Lends `read` two tables as long as `table`, one after the other, and says in `table` what came of their slots. The
/// slots that stand in them are those of `stood`, of which no two that follow each other are the same: from 0 on in the
/// first table, from 1 on in the second. So a slot that was filled is the same in both, and one that was kept is not.
/// `shown` gives the answer that a slot holds, if it does.
pub fn lend_table<S: Copy + PartialEq>(
    table: &mut [Slot],
    stood: impl Fn(usize) -> S,
    read: impl Fn(&mut [S]) -> Answer<usize>,
    shown: impl Fn(S) -> Option<Answer<Line>>,
) -> Answer<usize> {
    let before = [0, 1].map(|first| (first..first + table.len()).map(&stood).collect::<Vec<_>>());
    let mut after = before.clone();
    let answers = after.each_mut().map(|slots| read(slots));
    for (at, slot) in table.iter_mut().enumerate() {
        let [before, after] = [&before, &after].map(|tables| [tables[0][at], tables[1][at]]);
        assert!(before[0] != before[1], "a slot that is kept has to show");
        *slot = match after {
            _ if after == before => Slot::Kept,
            [one, other] if one == other => shown(one).map_or(Slot::Spoilt, Slot::Filled),
            _ => Slot::Spoilt,
        };
    }
    if answers[0] != answers[1] {
        table.fill(Slot::Spoilt);
    }
    answers[0]
}
