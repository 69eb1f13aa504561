//! Why a section is refused: the step, and what tells apart the places that it can give (C-17); and what else
//! would refuse the number that its body is (C-16).

use std::fmt;

use crate::bytes::breaking_unit;
use crate::neighbours::List;
use crate::order::{first_failure, Judged};
use crate::steps::{Headers, SectionStep, Test, READING, VALUE, WRITING};
use crate::{read, write, SectionValues};

/// A step that refuses, in one of its ways.
#[derive(Debug, Clone, Copy, PartialEq, Eq)]
pub struct Cause {
    /// The step's name.
    pub step: &'static str,
    /// How it fails, where its place depends on that.
    how: &'static str,
    /// Whether its header stands behind another.
    behind: bool,
}

/// How S4 fails.
const EMPTY: &str = " no sizes, DP set";
const EMPTY_AND_CLEAR: &str = " no sizes, DP clear";
const CLEAR: &str = " DP clear";
/// How P2 fails for a label to be written.
const ODD: &str = " odd";
/// The unit that S11 and P7 find first.
const FIRST: &str = " first unit";
const BETWEEN: &str = " unit between";
const LAST: &str = " last unit";

impl Cause {
    /// The causes of a list, which is [`List::Reading`] or [`List::Writing`], but 28 and 13.
    pub fn all(list: List) -> Vec<Self> {
        let mut all = Vec::new();
        let steps = if list == List::Writing { &WRITING[..] } else { &READING[..] };
        for step in steps.iter().filter(|step| step.name.starts_with(['S', 'P'])) {
            let behind: &[bool] = if step.name.starts_with('P') { &[false, true] } else { &[false] };
            let ways: &[&str] = match step.name {
                "S4" => &[EMPTY, EMPTY_AND_CLEAR, CLEAR],
                "P2" if list == List::Writing => &["", ODD],
                "S11" | "P7" => &[FIRST, BETWEEN, LAST],
                _ => &[""],
            };
            let each = ways.iter().flat_map(|&how| behind.iter().map(move |&behind| (how, behind)));
            all.extend(each.map(|(how, behind)| Self { step: step.name, how, behind }));
        }
        all
    }
}

impl fmt::Display for Cause {
    fn fmt(&self, f: &mut fmt::Formatter<'_>) -> fmt::Result {
        let behind = if self.behind { " at p" } else { "" };
        write!(f, "{}{}{behind}", self.step, self.how)
    }
}

/// Why `input` is refused, if it is.
pub fn reading(input: &[u8], security_first: bool) -> Option<Cause> {
    cause(&READING, &read::headers(input, security_first, usize::MAX))
}

/// Why `values` are refused, if they are.
pub fn writing(values: &SectionValues<'_>, output: usize) -> Option<Cause> {
    cause(&WRITING, &write::headers(values, output))
}

/// The names of C-16's steps that `input` breaks, in their order, whatever the section's say.
pub fn of_value(input: &[u8], security_first: bool) -> Vec<&'static str> {
    let headers = read::headers(input, security_first, usize::MAX);
    let steps = VALUE.iter().filter(|step| !step.name.starts_with(['S', 'P']));
    steps.filter(|step| headers.fails(&step.test)).map(|step| step.name).collect()
}

fn cause(order: &[SectionStep], headers: &Headers<'_>) -> Option<Cause> {
    let step = first_failure(order, headers)?;
    let behind = matches!(step.test, Test::Properties { .. }) && headers.properties.at != 0;
    Some(Cause { step: step.name, how: how(step.name, headers), behind })
}

fn how(step: &str, headers: &Headers<'_>) -> &'static str {
    match (step, &headers.security) {
        ("S4", Some(header)) => match (header.is_empty(), header.flags.data_present()) {
            (true, true) => EMPTY,
            (true, false) => EMPTY_AND_CLEAR,
            (false, _) => CLEAR,
        },
        ("S11", Some(header)) => unit(header.name().unwrap_or_default()),
        ("P2", _) if headers.properties.label_is_odd() => ODD,
        ("P7", _) => unit(headers.properties.label),
        _ => "",
    }
}

/// Which unit of a text breaks the rule first; an only one is the last.
fn unit(units: &[u8]) -> &'static str {
    match breaking_unit(units) as usize {
        at if at + 2 >= units.len() => LAST,
        0 => FIRST,
        _ => BETWEEN,
    }
}
