//! Lists a day's file as the listing program does: a line a record, with the values of its section or the refusal.
//!
//! ```text
//! cargo run --example list_day -- FILE
//! ```

use std::env;
use std::error::Error;
use std::fs;
use std::io::{self, BufWriter, Write};

use ugbariteyo::{records, Line, Refusal};

/// The line before those of the records.
pub const HEAD: &str = "no answer class label ext body total";

fn main() -> Result<(), Box<dyn Error>> {
    let args: Vec<String> = env::args().skip(1).collect();
    let [file] = &args[..] else {
        return Err("usage: list_day FILE".into());
    };
    let mut out = BufWriter::new(io::stdout().lock());
    list(&fs::read(file)?, &mut out)?;
    Ok(out.flush()?)
}

/// Writes the lines of a day's file to `out`.
pub fn list(file: &[u8], out: &mut impl Write) -> io::Result<()> {
    writeln!(out, "{HEAD}")?;
    let mut number = 0;
    for record in records(file) {
        match record {
            Ok(record) => list_record(number, record.answer, out)?,
            Err(stop) => return writeln!(out, "stop {}", stop.number),
        }
        number += 1;
    }
    writeln!(out, "end {number}")
}

/// Writes the line of a record to `out`.
pub fn list_record(number: usize, answer: Result<Line, Refusal>, out: &mut impl Write) -> io::Result<()> {
    match answer {
        Ok(line) => writeln!(
            out,
            "{number} ok {} {} {} {} {}",
            line.message_class,
            line.label_length.0,
            line.extension_size,
            line.message_size,
            line.section_length
        ),
        Err(refusal) => writeln!(out, "{number} refused {} {}", refusal.number, refusal.place),
    }
}
