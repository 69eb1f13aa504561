//! The rows that time a section in portions, beside what a caller without portions does.

use ugbariteyo::{First, Portions, Refusal};

use crate::c;
use crate::calls::{from_c, summary_in_one_go, values, Values};
use crate::output::Output;
use crate::samples::Sample;
use crate::table::Column::{FromC, InOneGo, Joined, Library, PlainRust, TunedC};
use crate::table::Row;
use crate::timing::taken;

/// The bytes of a short portion.
pub const SHORT: usize = 64;

/// A section in one portion.
pub fn one(sample: &Sample) -> Row {
    row("one portion", sample, usize::MAX)
}

/// A section in short portions.
pub fn short(sample: &Sample) -> Row {
    row(&format!("portions of {SHORT} bytes"), sample, SHORT)
}

/// A section in portions of so many bytes, from the start to the finish; beside the same bytes read in one go, and
/// where they do not lie together, joined first.
fn row(what: &str, sample: &Sample, size: usize) -> Row {
    let (section, first) = (sample.section(), sample.first());
    let portions: Vec<_> = section.chunks(size).collect();
    let lent_portions: Vec<_> = section.chunks(size).map(c::Bytes::from).collect();
    let lent = c::Portioned::new(&lent_portions, first);
    let out = Output::new(section.len());
    let mut calls = vec![
        (Library, taken(|| in_portions(&portions, first))),
        (FromC, from_c(|times| c::portions(&lent, &mut [], times))),
        (PlainRust, taken(|| plainly(&portions, sample.security_first))),
        (TunedC, from_c(|times| c::tuned_portions(&lent, &mut [], times))),
        (InOneGo, taken(|| summary_in_one_go(&section, first))),
    ];
    if portions.len() > 1 {
        calls.push((Joined, out.taken(|out| joined(&portions, first, out))));
    }
    Row::timed(format!("{what}, {}", sample.name), section.len(), calls)
}

/// The library's summary of the section in these portions.
pub fn in_portions(portions: &[&[u8]], first: First) -> Result<Values, Refusal> {
    let mut state = Portions::new(first);
    portions.iter().try_for_each(|bytes| state.portion(bytes))?;
    state.finish().map(values)
}

/// The independent one.
fn plainly(portions: &[&[u8]], security_first: bool) -> Result<Values, independent::Refusal> {
    let mut state = independent::portions::Portions::new(security_first);
    portions.iter().try_for_each(|bytes| state.portion(bytes))?;
    state.finish().map(|summary| (summary.properties.class, summary.properties.label.len(), summary.length))
}

/// The library's, of the portions joined in `out`, which is as long as they are.
fn joined(portions: &[&[u8]], first: First, out: &mut [u8]) -> Result<Values, Refusal> {
    let mut rest = &mut *out;
    for bytes in portions {
        let (to, behind) = rest.split_at_mut(bytes.len());
        to.copy_from_slice(bytes);
        rest = behind;
    }
    summary_in_one_go(out, first)
}
