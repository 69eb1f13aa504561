//! Sections that come in portions (C-12): valid ones, broken ones and ones that are cut, with portions that
//! end anywhere, and calls in any order.

use super::section::damage;
use super::{case, long_case, place_case, Case, Draft, Random};
use crate::field::lengths;

/// One section in so many is long in fact, and one in so many has many bytes behind it.
const LONG: usize = 1_000;
const MANY_BEHIND: usize = 200;
/// More bytes than 16 bits count; what is left of the count is less than most sections have.
const MANY: usize = 65_536;
/// The most bytes of the others.
const MOST: usize = 20_000;
/// The most bytes of a section that comes byte by byte.
const BYTE_BY_BYTE: usize = 700;
/// Numbers of bytes that come at a time.
const AT_A_TIME: [usize; 8] = [1, 2, 3, 5, 7, 16, 18, 64];
/// The most portions.
const PORTIONS: usize = 500;
/// The steps on what a part or a text holds, which is judged as it passes.
const CONTENT: [&str; 3] = ["S10", "S11", "P7"];

/// A call of a reader in portions, with the portion's bytes or with their number.
#[derive(Debug, Clone, Copy, PartialEq, Eq)]
pub enum Call<B> {
    /// The next bytes.
    Portion(B),
    /// The finish.
    Finish,
}

/// An input, and the calls by which it is read: its bytes are those of all portions, the refused ones too.
#[derive(Debug, Clone)]
pub struct PortionsCase {
    /// The portions joined.
    pub bytes: Vec<u8>,
    /// How they are to be read.
    pub security_first: bool,
    /// The calls, with the number of bytes that each takes.
    pub calls: Vec<Call<usize>>,
}

impl PortionsCase {
    /// The calls, with their bytes.
    pub fn calls(&self) -> impl Iterator<Item = Call<&[u8]>> {
        self.calls_with(&self.bytes)
    }

    /// The calls with other bytes, as far as these reach.
    pub fn calls_with<'a>(&'a self, bytes: &'a [u8]) -> impl Iterator<Item = Call<&'a [u8]>> {
        let mut rest = bytes;
        self.calls.iter().map_while(move |call| match *call {
            Call::Portion(length) => {
                let (bytes, behind) = rest.split_at_checked(length)?;
                rest = behind;
                Some(Call::Portion(bytes))
            }
            Call::Finish => Some(Call::Finish),
        })
    }
}

/// A section in portions; now and then without bytes, or with calls behind its finish.
pub fn portions_case(r: &mut Random) -> PortionsCase {
    let Case { bytes, security_first } = section(r);
    let ends = [vec![0], cuts(r, &bytes, security_first), vec![bytes.len()]].concat();
    let mut calls: Vec<_> = ends.windows(2).map(|ends| Call::Portion(ends[1] - ends[0])).collect();
    if bytes.is_empty() && r.once_in(2) {
        calls.clear();
    }
    let mut case = PortionsCase { bytes, security_first, calls };
    if r.once_in(4) {
        for _ in 0..1 + r.below(3) {
            case.insert(r, Call::Portion(0));
        }
    }
    case.add_finishes(r);
    case
}

impl PortionsCase {
    /// Puts a call that takes no bytes anywhere among the others.
    fn insert(&mut self, r: &mut Random, call: Call<usize>) {
        self.calls.insert(r.below(self.calls.len() + 1), call);
    }

    /// Most often one finish behind the portions; else calls behind it, or finishes among the portions.
    fn add_finishes(&mut self, r: &mut Random) {
        let early = r.once_in(8);
        if early {
            self.insert(r, Call::Finish);
        }
        if !early || r.once_in(2) {
            self.calls.push(Call::Finish);
        }
        if r.once_in(4) {
            for _ in 0..1 + r.below(3) {
                self.add_behind(r);
            }
        }
    }

    /// A finish or a portion more.
    fn add_behind(&mut self, r: &mut Random) {
        let more = r.pick(&[0, 1, 2, 16, 60]);
        if r.once_in(2) {
            self.calls.push(Call::Finish);
        } else {
            self.bytes.extend(r.bytes(more));
            self.calls.push(Call::Portion(more));
        }
    }
}

/// An input: any, one with a step broken, one whose parts hold something wrong and which is cut, one with
/// long texts, or none.
fn section(r: &mut Random) -> Case {
    let mut case = match r.below(16) {
        _ if r.once_in(LONG) => return long_case(r),
        0 if r.once_in(2) => Case { bytes: vec![], security_first: r.once_in(2) },
        0..=5 => case(r),
        6..=9 => place_case(r),
        10 | 11 => cut_content(r),
        _ => texts(r),
    };
    case.bytes.truncate(MOST);
    if r.once_in(MANY_BEHIND) {
        let length = MANY + r.below(case.bytes.len() + 100);
        case.bytes.resize(length, 0x5A);
    }
    case
}

/// A section with an identity, a name or a label that is wrong, cut anywhere: next to the end of a header, or
/// of the section.
fn cut_content(r: &mut Random) -> Case {
    let mut draft = Draft::valid(r);
    for _ in 0..1 + r.below(2) {
        let step = r.pick(&CONTENT);
        draft.break_step(r, step);
    }
    let mut bytes = draft.lay_out(r);
    let end = r.pick(&[bytes.len(), bytes.len(), draft.before_extension(), draft.security_length()]);
    let least = if r.once_in(2) { end.saturating_sub(12) } else { 0 };
    bytes.truncate(least + r.below(end + 1 - least));
    Case { bytes, security_first: draft.security_first }
}

/// A section with a name of any length and a label next to the longest or the shortest; most often valid, now
/// and then damaged, with bytes behind it, or with one half of a text's last unit not zero.
fn texts(r: &mut Random) -> Case {
    let mut draft = Draft::valid(r);
    if r.once_in(2) {
        draft.security_first = true;
        draft.flags &= !0x40;
        let more = if r.once_in(16) { r.below(5_000) } else { 0 };
        draft.provider = 4 + 2 * (1 + more + r.name_units()) as u32;
    }
    draft.label = r.pick(&[0, 1, 2, 3, 9, 249, 250, 250, 251, 255]);
    let mut bytes = draft.lay_out(r);
    match r.below(8) {
        0 => damage(r, &mut bytes),
        1 | 2 => {
            let behind = r.pick(&[1, 3, 4, 16, 60, 600]);
            bytes.extend(r.bytes(behind));
        }
        3 => {
            let label = !draft.security_first || r.once_in(2);
            let end = if label { draft.before_extension() } else { name_end(&draft) };
            bytes[end - 1 - r.below(2)] = 1 + r.below(255) as u8;
        }
        _ => {}
    }
    Case { bytes, security_first: draft.security_first }
}

/// Where the provider name ends, whose bytes are an even number.
fn name_end(draft: &Draft) -> usize {
    draft.security_length() - draft.provider as usize % 4
}

/// Where portions end before the last one does, in their order. Two that end at the same place have nothing
/// between them.
fn cuts(r: &mut Random, bytes: &[u8], security_first: bool) -> Vec<usize> {
    let length = bytes.len();
    let mut cuts: Vec<_> = match r.below(10) {
        0 => vec![],
        1 if length <= BYTE_BY_BYTE => (1..length).collect(),
        1 | 2 => {
            let step = r.pick(&AT_A_TIME).max(length / PORTIONS);
            (step..length).step_by(step).collect()
        }
        many => {
            let borders = borders(bytes, security_first);
            let count = if many < 9 { 1 + many % 2 } else { 3 + r.below(8) };
            (0..count).map(|_| cut(r, &borders, length)).collect()
        }
    };
    cuts.sort_unstable();
    cuts
}

/// A place to cut: next to a border, or anywhere.
fn cut(r: &mut Random, borders: &[usize], length: usize) -> usize {
    if r.once_in(3) {
        return r.below(length + 1);
    }
    (r.pick(borders) + r.below(5)).saturating_sub(2).min(length)
}

/// Where the fields and parts begin that came, by what the fixed bytes say; and where the last one ends.
fn borders(bytes: &[u8], security_first: bool) -> Vec<usize> {
    let mut borders = vec![0, bytes.len()];
    let mut at = 0;
    for length in lengths(bytes, security_first) {
        at += length;
        borders.push(bytes.len().min(at as usize));
    }
    borders.sort_unstable();
    borders.dedup();
    borders
}
