//! The rows of the main table and how they are printed.

use std::fmt;

use crate::timing::{best, Repeated, Time};

/// What a row times: the library, called from Rust through the safe crate and from C; and what it is held against.
#[derive(Clone, Copy)]
pub enum Column {
    Library,
    FromC,
    PlainRust,
    TunedC,
    Memcpy,
    Memset,
    /// Of what only compares, in memcpy's place.
    Memcmp,
    /// Of what comes in portions, the same bytes read in one go: as they lie, in memcpy's place, and joined by memcpy
    /// first, in memset's.
    InOneGo,
    Joined,
}

impl Column {
    /// Its place in a row, and what stands beside its time.
    fn place(self) -> (usize, &'static str) {
        match self {
            Self::Library => (0, ""),
            Self::FromC => (1, ""),
            Self::PlainRust => (2, ""),
            Self::TunedC => (3, ""),
            Self::Memcpy => (4, ""),
            Self::Memset => (5, ""),
            Self::Memcmp => (4, " (memcmp)"),
            Self::InOneGo => (4, " (in one go)"),
            Self::Joined => (5, " (joined)"),
        }
    }
}

/// The table's first two lines.
pub const HEADER: &str = "\
| what | bytes | library ns | library from C ns | plain safe Rust ns | library / it | tuned C ns | library / it | memcpy ns | library / it | memset ns | library / it |
|---|--:|--:|--:|--:|--:|--:|--:|--:|--:|--:|--:|";

/// The times of one thing, in nanoseconds.
pub struct Row {
    what: String,
    /// The bytes that are read or written.
    bytes: usize,
    times: [Option<(f64, &'static str)>; 6],
}

impl Row {
    /// The row of these times.
    pub fn new(what: String, bytes: usize, times: impl IntoIterator<Item = (Column, f64)>) -> Self {
        let mut row = Self { what, bytes, times: [None; 6] };
        for (column, time) in times {
            let (place, mark) = column.place();
            row.times[place] = Some((time, mark));
        }
        row
    }

    /// Times these calls.
    pub fn timed(what: String, bytes: usize, calls: Vec<(Column, Repeated<'_>)>) -> Self {
        let (columns, calls): (Vec<_>, Vec<_>) = calls.into_iter().unzip();
        Self::new(what, bytes, columns.into_iter().zip(best(calls)))
    }
}

impl fmt::Display for Row {
    fn fmt(&self, f: &mut fmt::Formatter<'_>) -> fmt::Result {
        let [library, from_c, held_against @ ..] = self.times;
        write!(f, "| {} | {} |", self.what, self.bytes)?;
        [library, from_c].into_iter().try_for_each(|time| cell(f, time.map(|(time, _)| Time(time))))?;
        held_against.into_iter().try_for_each(|time| {
            cell(f, time.map(|(time, mark)| format!("{}{mark}", Time(time))))?;
            cell(f, library.zip(time).map(|((library, _), (time, _))| format!("{:.2}", library / time)))
        })
    }
}

/// What there is, and the end of its cell.
fn cell(f: &mut fmt::Formatter<'_>, what: Option<impl fmt::Display>) -> fmt::Result {
    match what {
        Some(what) => write!(f, " {what} |"),
        None => write!(f, " |"),
    }
}
