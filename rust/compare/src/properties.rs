//! Demand 3, and C-24 of copies, as properties of one side alone.

use independent::generate::{case, long_case, Random};

use crate::bits;
use crate::lend::lend;
use crate::proposed;
use crate::report::{agree, require, Check, Difference, Tally};
use crate::sections::described;
use crate::side::{Side, Summary};

/// One case in so many is long in fact.
const LONG: u64 = 5_000;

/// Checks demand 3 on generated sections.
pub fn run(side: &dyn Side, cases: u64, r: &mut Random) -> Tally {
    let mut tally = Tally::new("demand 3 (library alone)");
    let mut accepted = [None, None]; // the last ones, by how they are read
    for number in 0..cases {
        let case = if number % LONG == LONG - 1 { long_case(r) } else { case(r) };
        let (input, security_first) = (&case.bytes[..], case.security_first);
        let earlier: &mut Option<Vec<u8>> = &mut accepted[usize::from(security_first)];
        let check = hold(side, input, security_first, earlier.as_deref(), r);
        let answer = side.summarize(input, security_first);
        tally.add(&answer, check, || described(input, security_first));
        if answer.is_ok() && input.len() < 4_096 {
            *earlier = Some(case.bytes);
        }
    }
    tally
}

/// Demand 3 for one input, and for it beside an earlier one that is accepted, read the same way.
fn hold(
    side: &dyn Side,
    input: &[u8],
    security_first: bool,
    earlier: Option<&[u8]>,
    r: &mut Random,
) -> Check {
    let answer = side.summarize(input, security_first);
    let says = |_: &str, copy: &[u8]| Ok(side.is_support_copy(input, security_first, copy));
    proposed::compare(&says, input, security_first, &answer, r)?;
    let summary = match answer {
        Ok(summary) => summary,
        Err(refusal) => {
            let copy = lend(input.len().min(4_096), |out| side.support_copy(input, security_first, out));
            agree("the copy is refused as reading is", &copy.answer, &Err(refusal))?;
            return copy.rest_stays();
        }
    };
    let judged = bits::judged(&summary);
    let copy = copy_of(side, input, security_first)?;
    agree("the copy is the section with every private bit zero", &copy, &bits::only(&judged, input))?;
    reads_back(side, &copy, security_first, &summary, r)?;
    agreeing(side, input, security_first, &summary, &copy, r)?;
    pair(side, &bits::judged_flipped(input, &judged, &summary, r), security_first, input, &summary)?;
    earlier.map_or(Ok(()), |earlier| pair(side, earlier, security_first, input, &summary))
}

/// The support copy of an accepted input.
fn copy_of(side: &dyn Side, input: &[u8], security_first: bool) -> Result<Vec<u8>, Difference> {
    let copy = lend(input.len(), |out| side.support_copy(input, security_first, out));
    require("an accepted input is copied", copy.answer.is_ok())?;
    copy.rest_stays()?;
    Ok(copy.bytes().to_vec())
}

/// "Each copy, read the way its original was and whatever bytes follow it, gives its original's summary."
fn reads_back(
    side: &dyn Side,
    copy: &[u8],
    security_first: bool,
    summary: &Summary<'_>,
    r: &mut Random,
) -> Check {
    let mut followed = copy.to_vec();
    let more = r.below(24);
    followed.extend_from_slice(&r.bytes(more));
    agree("the copy's summary", &side.summarize(&followed, security_first), &Ok(*summary))
}

/// An input of the same length that agrees in every judged bit: accepted, with the same summary and the same copy.
fn agreeing(
    side: &dyn Side,
    input: &[u8],
    security_first: bool,
    summary: &Summary<'_>,
    copy: &[u8],
    r: &mut Random,
) -> Check {
    let other = bits::private_changed(input, &bits::judged(summary), r);
    let what = "the summary of an input that agrees";
    agree(what, &side.summarize(&other, security_first), &Ok(*summary))?;
    require("the same summary of an input that agrees", side.same_summary(input, &other, security_first))?;
    require("the copy is that of an input that agrees", side.is_support_copy(&other, security_first, copy))?;
    agree("the copy of an input that agrees", &copy_of(side, &other, security_first)?[..], copy)
}

/// Two inputs, the second one accepted: summaries and copies are the same exactly when they agree in every judged bit.
fn pair(side: &dyn Side, one: &[u8], security_first: bool, two: &[u8], summary: &Summary<'_>) -> Check {
    let same = side.same_summary(one, two, security_first);
    let Ok(other) = side.summarize(one, security_first) else {
        return require("no same summary with a refused one", !same);
    };
    let agrees = bits::agrees(one, &bits::judged(summary), two);
    agree("agreeing in judged bits goes both ways", &bits::agrees(two, &bits::judged(&other), one), &agrees)?;
    agree("the same summary exactly when judged bits agree", &same, &agrees)?;
    agree("equal summaries exactly when judged bits agree", &(other == *summary), &agrees)?;
    let copy = copy_of(side, two, security_first)?;
    let is_its_copy = side.is_support_copy(one, security_first, &copy);
    agree("the copy of another exactly when judged bits agree", &is_its_copy, &agrees)?;
    let copies = copy_of(side, one, security_first)? == copy;
    agree("equal copies exactly when judged bits agree", &copies, &agrees)
}
