//! Cases with a step broken and nothing cut or flipped afterwards, so that each way in which a step can
//! fail comes up, and with it each place that it can give (C-17).

use super::section::{self, lengthen_provider};
use super::values::{self, OwnedValues};
use super::{Case, Draft, Random};
use crate::LIMIT;

/// The steps on texts, which fail at any unit.
const TEXTS: [&str; 2] = ["S11", "P7"];
/// One case in so many has its MessagePropertiesHeader next to the limit, which takes long.
const FAR: usize = 3_000;
/// What is broken in it.
const FAR_STEPS: [&str; 3] = ["P2", "P3", "P4"];
/// The most bytes of the others.
const MOST: usize = 20_000;

/// A section with a step broken, and now and then bytes behind it.
pub fn place_case(r: &mut Random) -> Case {
    let mut draft = Draft::valid(r);
    if r.once_in(FAR) {
        let end = LIMIT - r.pick(&[0, 0, 4, 600]);
        lengthen_provider(r, &mut draft, end);
        let step = r.pick(&FAR_STEPS);
        draft.break_step(r, step);
        draft.room = usize::MAX;
    } else {
        for step in steps(r, &section::STEPS, &[]) {
            draft.break_step(r, step);
        }
        draft.room = draft.room.min(MOST);
    }
    let mut bytes = draft.lay_out(r);
    let behind = r.pick(&[0, 0, 0, 0, 0, 1, 4, 60]);
    bytes.extend(r.bytes(behind));
    Case { bytes, security_first: draft.security_first }
}

/// Values for the section writer with a step broken.
pub fn place_values(r: &mut Random) -> OwnedValues {
    let mut values = OwnedValues::legal(r);
    let steps = if r.once_in(FAR) {
        values.fill_header(r.pick(&[0, 0, -2, -600]));
        vec![r.pick(&FAR_STEPS)]
    } else {
        steps(r, &values::STEPS, &values::RARE)
    };
    values.broken(r, &steps)
}

/// The steps to break: every other time one on a text, now and then a second one beside it.
fn steps<'l>(r: &mut Random, list: &[&'l str], rare: &[&str]) -> Vec<&'l str> {
    let mut steps = vec![if r.once_in(2) { r.pick(&TEXTS) } else { r.pick(list) }];
    if r.once_in(4) {
        steps.push(r.pick(list));
    }
    steps.retain(|step| !rare.contains(step) || r.once_in(20));
    steps
}
