//! What a comparison came to: a difference, a tally for each kind of case, and the table of all.

use std::collections::BTreeMap;
use std::fmt::{self, Debug, Display, Write};

use independent::neighbours::{List, Neighbours};

use crate::side::Answer;

/// The differences of a kind that are shown.
const SHOWN: usize = 3;
/// The characters of an input or an answer that are shown.
const SHOWN_LENGTH: usize = 600;
/// How often a run meets each pair of neighbouring steps broken together.
pub const OFTEN: u64 = 100;

/// Two answers that have to be the same and are not.
#[derive(Debug)]
pub struct Difference(String);

/// The outcome of one case.
pub type Check = Result<(), Difference>;

/// A difference unless `found` is `wanted`.
pub fn agree<T: PartialEq + Debug + ?Sized>(what: &str, found: &T, wanted: &T) -> Check {
    if found == wanted {
        return Ok(());
    }
    let (found, wanted) = (shortened(format_args!("{found:?}")), shortened(format_args!("{wanted:?}")));
    Err(Difference(format!("{what}\n    one:   {found}\n    other: {wanted}")))
}

/// A difference unless `holds`.
pub fn require(what: &str, holds: bool) -> Check {
    if holds {
        Ok(())
    } else {
        Err(Difference(what.into()))
    }
}

/// A difference unless there is a value, which is given.
pub fn known<T>(what: &str, value: Option<T>) -> Result<T, Difference> {
    value.ok_or_else(|| Difference(format!("{what} is known")))
}

/// Values with their numbers and bytes in hex.
pub fn values_in_hex(values: &impl Debug) -> String {
    shortened(format_args!("{values:02x?}"))
}

/// Bytes in hex.
pub fn hex(bytes: &[u8]) -> String {
    let shown = bytes.len().min(SHOWN_LENGTH / 2);
    let digits: String = bytes[..shown].iter().map(|byte| format!("{byte:02x}")).collect();
    if shown < bytes.len() {
        format!("{digits}.. ({} bytes)", bytes.len())
    } else {
        digits
    }
}

/// The start of a text that may be long. What is not shown is not made: a part can have millions of bytes.
fn shortened(text: fmt::Arguments<'_>) -> String {
    let mut start = Start(String::new());
    match start.write_fmt(text) {
        Ok(()) => start.0,
        Err(fmt::Error) => start.0 + "..",
    }
}

/// A text that ends with an error where more than is shown is written to it.
struct Start(String);

impl Write for Start {
    fn write_str(&mut self, text: &str) -> fmt::Result {
        let room = SHOWN_LENGTH - self.0.len();
        let cut = text.char_indices().find(|(at, c)| at + c.len_utf8() > room);
        self.0.push_str(cut.map_or(text, |(end, _)| &text[..end]));
        cut.map_or(Ok(()), |_| Err(fmt::Error))
    }
}

/// Something that the cases of a kind are to meet, and how often they do.
struct Met {
    what: String,
    least: u64,
    times: u64,
}

/// The cases of one kind.
pub struct Tally {
    name: &'static str,
    cases: u64,
    accepted: u64,
    refused: BTreeMap<u32, u64>,
    met: Vec<Met>,
    differences: u64,
    first: Vec<String>,
}

impl Tally {
    /// No case yet.
    pub fn new(name: &'static str) -> Self {
        let (refused, met, first) = Default::default();
        Self { name, cases: 0, accepted: 0, refused, met, differences: 0, first }
    }

    /// No case yet, of a kind that is to meet the neighbours of `list` broken together.
    pub fn with_neighbours(name: &'static str, list: List) -> Self {
        let mut tally = Self::new(name);
        for pair in list.neighbours() {
            tally.is_to_meet(pair, OFTEN);
        }
        tally
    }

    /// The cases are to meet `what` so many times.
    pub fn is_to_meet(&mut self, what: impl Display, least: u64) {
        self.met.push(Met { what: what.to_string(), least, times: 0 });
    }

    /// Counts that a case met `what`.
    pub fn meet(&mut self, what: impl Display) {
        let what = what.to_string();
        let met = self.met.iter_mut().find(|met| met.what == what);
        met.expect("it was to be met").times += 1;
    }

    /// Counts that a case met `what`, where `it_did`.
    pub fn meet_if(&mut self, it_did: bool, what: impl Display) {
        if it_did {
            self.meet(what);
        }
    }

    /// Counts the neighbours that a case breaks together, if it does.
    pub fn meet_neighbours(&mut self, both: Option<Neighbours>) {
        if let Some(both) = both {
            self.meet(both);
        }
    }

    /// Counts one case: its answer, and whether it held. `case` describes it where it did not.
    pub fn add<T>(&mut self, answer: &Answer<T>, check: Check, case: impl FnOnce() -> String) {
        self.count(answer.as_ref().map(|_| ()).map_err(|refusal| refusal.number));
        self.check(check, case);
    }

    /// Counts an accepted case, or one refused with this number.
    pub fn count(&mut self, answer: Result<(), u32>) {
        self.cases += 1;
        match answer {
            Ok(()) => self.accepted += 1,
            Err(number) => *self.refused.entry(number).or_default() += 1,
        }
    }

    /// Notes the difference, if there is one.
    pub fn check(&mut self, check: Check, case: impl FnOnce() -> String) {
        let Err(Difference(what)) = check else { return };
        self.differences += 1;
        if self.first.len() < SHOWN {
            let case = case();
            self.first.push(format!("{}, case {}: {what}\n    input: {case}", self.name, self.cases));
        }
    }

    /// How many cases met `what`.
    pub fn times_met(&self, what: impl Display) -> u64 {
        let what = what.to_string();
        self.met.iter().find(|met| met.what == what).map_or(0, |met| met.times)
    }

    /// How many cases there were.
    pub fn cases(&self) -> u64 {
        self.cases
    }

    /// How many cases differed.
    pub fn differences(&self) -> u64 {
        self.differences
    }

    /// Notes a difference where no case was refused with one of `numbers`: then the cases are too few to tell.
    pub fn has_met(&mut self, numbers: &[u32]) {
        for number in numbers {
            let met = self.refused.contains_key(number);
            self.check(require("a refusal was met", met), || format!("none, for refusal {number}"));
        }
    }

    /// Notes a difference for each thing that was to be met and was not often enough.
    pub fn has_met_all(&mut self) {
        let seldom = self.met.iter().filter(|met| met.times < met.least);
        let seldom: Vec<_> = seldom.map(|met| format!("{} only {} times", met.what, met.times)).collect();
        for met in seldom {
            self.check(require("it was met often enough", false), || met);
        }
    }

    /// The first differences, with their inputs.
    pub fn first(&self) -> &[String] {
        &self.first
    }
}

/// The table's first line.
pub const HEADER: &str =
    "kind                          cases   accepted differences  refused (number: cases)";

impl fmt::Display for Tally {
    fn fmt(&self, f: &mut fmt::Formatter<'_>) -> fmt::Result {
        write!(f, "{:<26} {:>8} {:>10} {:>11} ", self.name, self.cases, self.accepted, self.differences)?;
        self.refused.iter().try_for_each(|(number, cases)| write!(f, " {number}: {cases}"))?;
        if self.met.is_empty() {
            return Ok(());
        }
        let met: Vec<_> = self.met.iter().map(|met| format!("{} {}", met.what, met.times)).collect();
        write!(f, "\n  met: {}", met.join(", "))
    }
}
