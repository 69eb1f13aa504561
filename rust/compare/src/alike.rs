//! Refused inputs and others that differ from them only where C-24 says that it does not count: "the same refusal with
//! the same number and place", by each side and each of its calls.

use independent::cause::{self, Cause};
use independent::field::{field_of, NAMES};
use independent::generate::{case, place_case, Case, Random};
use independent::may_differ;
use independent::neighbours::List;

use crate::lend::lend;
use crate::report::{agree, Check, Tally, OFTEN};
use crate::sections::described;
use crate::side::{Refusal, Side, Sides};

/// The causes without a bit that may differ: no header's fixed bytes are there.
const NO_HEADER: [&str; 2] = ["S1", "P1"];
/// The fields and parts, by their numbers, in which two such inputs may differ. An accepted identity has no padding.
const FIELDS: [u32; 12] = [1, 7, 9, 10, 11, 12, 13, 14, 17, 18, 21, 23];
/// How often they are to: the padding of a part is short, and there only where the SecurityHeader is accepted.
const FIELD_LEAST: u64 = 40;
/// The last of those that lie in a SecurityHeader.
const LAST_IN_SECURITY: u32 = 17;
/// A bit behind a SecurityHeader that is refused itself.
const BEHIND: &str = "behind a refused SecurityHeader";
/// The bytes that are put everywhere: no bit set, the first byte of an identity of kind 1, every bit set.
const SAME: [u8; 3] = [0, 1, 0xFF];
/// The bytes lent for a copy, which is refused.
const ROOM: usize = 8;

/// Compares generated refused inputs with others that differ from them in one bit at least; they are to meet each
/// cause of a refusal, and each field in which a single bit differs.
pub fn run(sides: Sides<'_>, cases: u64, r: &mut Random) -> Tally {
    let mut tally = Tally::new("refused alike");
    causes().for_each(|cause| tally.is_to_meet(cause, OFTEN));
    FIELDS.iter().for_each(|&field| tally.is_to_meet(NAMES[field as usize], FIELD_LEAST));
    tally.is_to_meet(BEHIND, OFTEN);
    while tally.cases() < cases {
        let Case { bytes, security_first } = if r.once_in(2) { case(r) } else { place_case(r) };
        let Some(cause) = cause::reading(&bytes, security_first) else { continue };
        let Some((other, bit)) = changed(&bytes, &may_differ(&bytes, security_first), r) else { continue };
        let check = compare(sides, &bytes, &other, security_first);
        tally.meet(cause);
        if let Some(place) = bit {
            let field = field_of(&bytes, security_first, 0, place).field;
            tally.meet(NAMES[field as usize]);
            tally.meet_if(field > LAST_IN_SECURITY && cause.step.starts_with('S'), BEHIND);
        }
        let answer = sides.one.summarize(&bytes, security_first);
        tally.add(&answer, check, || {
            format!("{}, and {}", described(&bytes, security_first), described(&other, security_first))
        });
    }
    tally
}

/// The causes with bits that may differ.
fn causes() -> impl Iterator<Item = Cause> {
    Cause::all(List::Reading).into_iter().filter(|cause| !NO_HEADER.contains(&&cause.to_string()[..]))
}

/// The input with other bits where `mask` says: one flipped, whose byte's place is given too, or all of them drawn, or
/// every byte made the same. None where it would be the input.
fn changed(input: &[u8], mask: &[u8], r: &mut Random) -> Option<(Vec<u8>, Option<usize>)> {
    let mut other = input.to_vec();
    if r.once_in(2) {
        let at = place(mask, r)?;
        let bit = 1 << r.below(8);
        other[at] ^= if mask[at] & bit == 0 { bit << 4 } else { bit };
        return Some((other, Some(at)));
    }
    let new = if r.once_in(4) { r.bytes(input.len()) } else { vec![r.pick(&SAME); input.len()] };
    for ((byte, bits), new) in other.iter_mut().zip(mask).zip(new) {
        *byte = *byte & !bits | new & bits;
    }
    (other != input).then_some((other, None))
}

/// The place of a byte with bits in `mask`: each run of them is as likely, so that short ones come up.
fn place(mask: &[u8], r: &mut Random) -> Option<usize> {
    let (mut runs, mut end) = (Vec::new(), 0);
    for run in mask.chunk_by(|one, next| one == next) {
        let start = end;
        end += run.len();
        if run[0] != 0 {
            runs.push(start..end);
        }
    }
    let run = runs.get(r.below(runs.len().max(1)))?;
    Some(run.start + r.below(run.len()))
}

/// Each side refuses both inputs alike, and as the other side does.
fn compare(sides: Sides<'_>, input: &[u8], other: &[u8], security_first: bool) -> Check {
    for side in [sides.one, sides.other] {
        hold(side, input, other, security_first)?;
    }
    sides.both("the refusals", |side| refusals(side, input, security_first)).map(|_| ())
}

/// C-24 for one side.
fn hold(side: &dyn Side, input: &[u8], other: &[u8], security_first: bool) -> Check {
    let [one, two] = [input, other].map(|input| refusals(side, input, security_first));
    agree("the same refusal where only private bits differ", &one, &two)
}

/// The refusal by each call that gives one.
fn refusals(side: &dyn Side, input: &[u8], security_first: bool) -> [Option<Refusal>; 4] {
    let copy = lend(ROOM, |out| side.support_copy(input, security_first, out));
    let reading = side.read(input, security_first).err();
    let value = side.read_value(input, security_first).err();
    [reading, side.summarize(input, security_first).err(), copy.answer.err(), value]
}
