//! Reads a day's file of at most 256 records in a single call and lists it as the listing program does.
//!
//! ```text
//! cargo run --example read_day -- FILE
//! ```
//!
//! `list_day` lists a file of any number of records.

use std::env;
use std::error::Error;
use std::fs;
use std::io::{self, Write};

use ugbariteyo::{read_day, DaySlot, Kind, DAY_MOST};

#[allow(dead_code)] // its main
#[path = "list_day.rs"]
mod list_day;

fn main() -> Result<(), Box<dyn Error>> {
    let [_, file] = &env::args_os().collect::<Vec<_>>()[..] else {
        return Err("usage: read_day FILE".into());
    };
    list(&fs::read(file)?, &mut io::stdout().lock())
}

/// Writes the lines of a day's file to `out`, or nothing where it has too many records.
pub fn list(file: &[u8], out: &mut impl Write) -> Result<(), Box<dyn Error>> {
    let mut table = [DaySlot::default(); DAY_MOST];
    let (filled, last) = match read_day(file, &mut table) {
        Ok(records) => (records, "end"),
        Err(refusal) if refusal.kind() == Some(Kind::BadRecord) => (refusal.place, "stop"),
        Err(refusal) => return Err(refusal.to_string().into()),
    };
    writeln!(out, "{}", list_day::HEAD)?;
    for (number, answer) in table[..filled].iter().filter_map(DaySlot::answer).enumerate() {
        list_day::list_record(number, answer, out)?;
    }
    Ok(writeln!(out, "{last} {filled}")?)
}
