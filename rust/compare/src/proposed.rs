//! Proposed copies (C-24): of each section the right one, and ones that are wrong in the ways in which a tool may have
//! them wrong. "Yes exactly when the section is accepted and the copy is byte for byte the one 01 fixes."

use independent::generate::Random;
use independent::{copy_by_sizes, may_differ};

use crate::bits;
use crate::report::{agree, Check, Difference};
use crate::side::{Answer, Part, Summary};

/// Who is asked about a proposed copy: it says whether the copy is right.
pub type Ask<'a> = &'a dyn Fn(&str, &[u8]) -> Result<bool, Difference>;

/// The private fields and parts of each section that are tried.
const PRIVATE: usize = 3;
/// The most bytes by which a copy is longer or shorter.
const MORE: usize = 8;

/// Asks about copies of one input.
pub fn compare(
    ask: Ask<'_>,
    input: &[u8],
    security_first: bool,
    summary: &Answer<Summary<'_>>,
    r: &mut Random,
) -> Check {
    match summary {
        Ok(summary) => Proposed::new(ask, input, summary).all(summary, r),
        Err(_) => of_refused(ask, input, security_first),
    }
}

/// "Else no, for a refused section too": itself, none, zeros, itself without private bits, and what a tool that does
/// not judge makes of it.
fn of_refused(ask: Ask<'_>, input: &[u8], security_first: bool) -> Check {
    let no = |what, copy: &[u8]| agree(what, &ask(what, copy)?, &false);
    no("a refused section as its copy", input)?;
    no("an empty copy of a refused section", &[])?;
    no("zeros as the copy of a refused section", &vec![0; input.len()])?;
    let mut hidden = may_differ(input, security_first);
    hidden.iter_mut().zip(input).for_each(|(bits, byte)| *bits = byte & !*bits);
    no("a refused section without private bits", &hidden)?;
    copy_by_sizes(input, security_first).map_or(Ok(()), |copy| no("the copy of a refused section", &copy))
}

/// The copies that are proposed for an accepted section.
struct Proposed<'a> {
    ask: Ask<'a>,
    input: &'a [u8],
    judged: Vec<u8>,
    right: Vec<u8>,
    /// The next copy: between two questions it is the right one.
    copy: Vec<u8>,
}

impl<'a> Proposed<'a> {
    fn new(ask: Ask<'a>, input: &'a [u8], summary: &Summary<'_>) -> Self {
        let judged = bits::judged(summary);
        let right = bits::only(&judged, input);
        let mut copy = Vec::with_capacity(input.len() + MORE);
        copy.extend_from_slice(&right);
        Self { ask, input, judged, right, copy }
    }

    fn all(mut self, summary: &Summary<'_>, r: &mut Random) -> Check {
        self.says("the right copy", &self.copy)?;
        self.says("the section as its copy", &self.input[..self.right.len()])?;
        self.lengths(r)?;
        let at = bits::judged_bit(&self.judged, summary, r);
        self.flipped("a copy with a judged bit flipped", at)?;
        let private = bits::private(summary);
        for _ in 0..PRIVATE {
            let part = r.pick(&private);
            if r.once_in(2) {
                self.kept(part)?;
            } else {
                self.set(part, r)?;
            }
        }
        Ok(())
    }

    /// What is said of `copy` has to be whether it is the right one.
    fn says(&self, what: &str, copy: &[u8]) -> Check {
        agree(what, &(self.ask)(what, copy)?, &(copy == self.right))
    }

    /// Copies that are longer, as long as the input, shorter, or empty.
    fn lengths(&mut self, r: &mut Random) -> Check {
        let length = self.right.len();
        let (more, less) = (1 + r.below(MORE), 1 + r.below(MORE));
        self.copy.resize(length + more, 0);
        self.says("a copy with zeros behind it", &self.copy)?;
        r.fill(&mut self.copy[length..]);
        self.says("a copy with bytes behind it", &self.copy)?;
        self.copy.resize(length, 0);
        if self.input.len() > length {
            self.copy.resize(self.input.len(), 0);
            self.says("a copy as long as the input", &self.copy)?;
            self.copy[length..].copy_from_slice(&self.input[length..]);
            self.says("a copy with the input's bytes behind it", &self.copy)?;
            self.says("the input as the copy", self.input)?;
            self.copy.truncate(length);
        }
        self.says("a copy that is cut", &self.copy[..length - less])?;
        self.says("a copy that is cut anywhere", &self.copy[..r.below(length)])?;
        self.says("an empty copy", &[])
    }

    /// The copy with bits of one byte flipped.
    fn flipped(&mut self, what: &str, (at, bits): (usize, u8)) -> Check {
        self.copy[at] ^= bits;
        self.says(what, &self.copy)?;
        self.copy[at] ^= bits;
        Ok(())
    }

    /// The copy with a private bit set: anywhere, or at an end.
    fn set(&mut self, part: Part, r: &mut Random) -> Check {
        let within = r.below(part.length);
        let at = part.start + r.pick(&[0, part.length - 1, within]);
        let bit = if self.judged[at] == 0 { r.below(8) } else { 4 + r.below(4) };
        self.flipped("a copy with a private bit set", (at, 1 << bit))
    }

    /// The copy with the input's bytes kept where they are private.
    fn kept(&mut self, part: Part) -> Check {
        let range = part.start..part.start + part.length;
        self.copy[range.clone()].copy_from_slice(&self.input[range.clone()]);
        self.says("a copy that keeps private bits", &self.copy)?;
        self.copy[range.clone()].copy_from_slice(&self.right[range]);
        Ok(())
    }
}
