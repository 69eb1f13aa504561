//! Sections whose properties are made: each group of them known and not known, each privacy and the
//! levels next to it, and labels of each length that a title is cut to.

use super::section::{damage, STEPS};
use super::{Case, Draft, Random};

/// The levels of a packet that are a request's.
const MAPPED: [u32; 3] = [0, 1, 3];
/// The most bytes of a section.
const MOST: usize = 20_000;

/// A section, most often a valid one; else with a step broken, or damaged. Now and then bytes stand
/// behind it.
pub fn properties_case(r: &mut Random) -> Case {
    let mut draft = Draft::valid(r);
    draft.privacy = privacy(r);
    if r.once_in(2) {
        draft.label = r.pick(&[0, 1, 2, 3, 249, 250]);
    }
    if draft.security_first && r.once_in(4) {
        leave_one_part(r, &mut draft);
    }
    if r.once_in(6) {
        let step = r.pick(&STEPS);
        draft.break_step(r, step);
    }
    draft.room = draft.room.min(MOST);
    let mut bytes = draft.lay_out(r);
    match r.below(8) {
        0 => damage(r, &mut bytes),
        1 | 2 => {
            let behind = 1 + r.below(70);
            bytes.extend(r.bytes(behind));
        }
        _ => {}
    }
    Case { bytes, security_first: draft.security_first }
}

/// A level that is mapped, one bit away from one that is, or any that a generator draws.
fn privacy(r: &mut Random) -> u32 {
    match r.below(4) {
        0 => r.privacy(),
        1 => r.pick(&MAPPED) ^ (1 << r.below(32)),
        2 => r.pick(&[2, 4, 5, 6, 7, 0xFFFFFFFF]),
        _ => r.pick(&MAPPED),
    }
}

/// Leaves one part of a SecurityHeader, so that none of the others says what is known.
fn leave_one_part(r: &mut Random, draft: &mut Draft) {
    let whole = draft.clone();
    (draft.identity, draft.key, draft.signature) = (0, 0, 0);
    (draft.certificate, draft.provider) = (0, 0);
    draft.flags &= 0xFFF0;
    match r.below(4) {
        0 => draft.key = whole.key.max(1),
        1 => draft.certificate = whole.certificate.max(1),
        2 => {
            draft.signature = whole.signature.max(1);
            draft.flags |= 0x40;
        }
        _ => {
            draft.provider = 6 + 2 * r.below(5) as u32;
            draft.flags &= !0x40;
        }
    }
}
