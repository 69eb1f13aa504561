//! Sections read in portions (C-12): both sides call by call, each beside its own reading in one go, and C-12's
//! sentences.

pub mod cuts;
mod seen;

use independent::generate::{portions_case, PortionsCase, Random};
use independent::number::AFTER_THE_FINISH;

use crate::bits;
use crate::report::{agree, hex, require, Check, Difference, Tally};
use crate::sections;
use crate::side::{Answer, Call, Portions, Refusal, Side, Sides, Summary};

use seen::Seen;

/// What a portion or a second finish after the finish is refused with.
pub const AFTER: Refusal = Refusal { number: AFTER_THE_FINISH, place: 0 };
/// The most bytes of an input beside which others are read.
const SHORT: usize = 5_000;
/// What comes at a time of very many bytes behind a section, and how many they are: more than 32 bits count, with so
/// little left of the count that the section would be cut.
const AT_A_TIME: usize = 1 << 26;
const VERY_MANY: usize = (1 << 32) - 50;

/// Compares generated sections in portions. A case counts by what its last call gives.
pub fn run(sides: Sides<'_>, cases: u64, r: &mut Random) -> Tally {
    let mut tally = Tally::new("portions");
    seen::is_to_meet(&mut tally);
    for _ in 0..cases {
        let case = portions_case(r);
        let seen = Seen::new(&case);
        seen.survey(&mut tally);
        let check = compare(sides, &case).and_then(|()| demand_3(sides, &case, &seen, r));
        tally.add(&seen.last(), check, || described(&case));
    }
    tally
}

/// An input and the calls by which it is read: each portion's bytes, and `F` for a finish.
fn described(case: &PortionsCase) -> String {
    let calls = case.calls.iter().map(|call| match call {
        Call::Portion(length) => length.to_string(),
        Call::Finish => "F".into(),
    });
    let calls: Vec<_> = calls.collect();
    format!("security first {}, calls {}, {}", case.security_first, calls.join(" "), hex(&case.bytes))
}

/// Compares two sides call by call, and the finish with what each of them says of the portions joined.
fn compare(sides: Sides<'_>, case: &PortionsCase) -> Check {
    let [mut one, mut other] = [sides.one, sides.other].map(|side| side.portions(case.security_first));
    let (mut came, mut finished) = (0, false);
    for call in case.calls() {
        match call {
            _ if finished => {
                refused(&mut *one, call)?;
                refused(&mut *other, call)?;
            }
            Call::Portion(bytes) => {
                came += bytes.len();
                let taken = [one.portion(bytes), other.portion(bytes)];
                agree("a portion before the finish", &taken, &[Ok(()); 2])?;
            }
            Call::Finish => {
                finished = true;
                let answer = one.finish();
                agree("the finish", &answer, &other.finish())?;
                let input = &case.bytes[..came];
                for side in [sides.one, sides.other] {
                    let whole = in_one_go(side, input, case.security_first)?;
                    agree("the finish and reading in one go", &answer, &whole)?;
                }
            }
        }
    }
    Ok(())
}

/// "Refused with 14 and changes nothing."
fn refused(state: &mut dyn Portions, call: Call<&[u8]>) -> Check {
    require("a call after the finish changes nothing", state.stays(call))?;
    agree("a call after the finish", &state.call(call), &Err(AFTER))
}

/// What a side says of a whole input, "compared without" the provider name.
fn in_one_go<'a>(
    side: &dyn Side,
    input: &'a [u8],
    security_first: bool,
) -> Result<Answer<Summary<'a>>, Difference> {
    let nameless = side.summarize_nameless(input, security_first);
    let summary = side.summarize(input, security_first);
    agree("the summary without the name", &nameless, &summary.map(Summary::without_provider_name))?;
    Ok(nameless)
}

/// "The summaries of demand 3's two accepted inputs are the same here exactly when every judged bit outside the
/// provider name agrees": beside an accepted input one that agrees so far, and one with such a bit flipped.
fn demand_3(sides: Sides<'_>, case: &PortionsCase, seen: &Seen<'_>, r: &mut Random) -> Check {
    let (input, Ok(summary)) = (seen.input, &seen.answer) else { return Ok(()) };
    if input.len() > SHORT {
        return Ok(());
    }
    let name = seen::name(summary);
    let mut judged = bits::judged(summary);
    judged[name.clone()].fill(0);
    let mut agreeing = bits::private_changed(input, &judged, r);
    rename(&mut agreeing[name]);
    let flipped = bits::judged_flipped(input, &judged, summary, r);
    for side in [sides.one, sides.other] {
        let mut states = [(); 3].map(|()| side.portions(case.security_first));
        let [state, same, another] = &mut states;
        let answer = finished(&mut **state, case, input);
        agree("the summary of one that agrees", &finished(&mut **same, case, &agreeing), &answer)?;
        let another = finished(&mut **another, case, &flipped);
        require("another summary with a judged bit flipped", another != answer)?;
    }
    Ok(())
}

/// Makes any bytes a name: only the last unit is zero.
fn rename(name: &mut [u8]) {
    let units = name.len() / 2;
    for (unit, number) in name.chunks_exact_mut(2).zip(1..) {
        match number {
            _ if number == units => unit.fill(0),
            _ if unit == [0, 0] => unit[number % 2] = 1,
            _ => {}
        }
    }
}

/// What the first finish gives where `input` comes in the portions of `case`.
fn finished<'s>(state: &'s mut dyn Portions, case: &PortionsCase, input: &[u8]) -> Answer<Summary<'s>> {
    for call in case.calls_with(input) {
        match call {
            Call::Portion(bytes) => state.portion(bytes)?,
            Call::Finish => break,
        }
    }
    state.finish()
}

/// Compares both sides on sections with very many bytes behind them: "the count must not wrap".
pub fn run_behind(sides: Sides<'_>) -> Tally {
    let mut tally = Tally::new("portions past 2^32 bytes");
    let many = vec![0; AT_A_TIME];
    let keyed = [&b"\x80\0\0\0\x04\0\0\0\0\0\0\0\0\0\0\0akey"[..], &[0; 56]].concat();
    for (section, security_first) in [(&[0; 56][..], false), (&keyed, true)] {
        let check = [sides.one, sides.other].iter().try_for_each(|side| {
            let mut state = side.portions(security_first);
            let mut taken = state.portion(section);
            for at in (0..VERY_MANY).step_by(AT_A_TIME) {
                taken = taken.and_then(|()| state.portion(&many[..AT_A_TIME.min(VERY_MANY - at)]));
            }
            agree("the portions", &taken, &Ok(()))?;
            let whole = in_one_go(*side, section, security_first)?;
            agree("the finish behind very many bytes", &state.finish(), &whole)
        });
        let answer = sides.one.summarize(section, security_first);
        tally.add(&answer, check, || sections::described(section, security_first));
    }
    tally
}
