//! The row that times the listing of a large day file: two programs, the same file on their standard input.

use std::env;
use std::fs::{self, File};
use std::io::{self, BufWriter, Write};
use std::path::Path;
use std::process::{Command, Stdio};
use std::time::Instant;

use crate::samples::{record, Sample};
use crate::table::{Column, Row};

/// The argument that makes this program list its standard input with the independent library.
pub const LIST: &str = "list";

/// The records of the day file.
const RECORDS: usize = 1_000_000;
/// How often each program runs.
const RUNS: usize = 7;
/// Lists standard input with the independent library.
pub fn list() -> io::Result<()> {
    independent::listing::list(io::stdin().lock(), io::stdout().lock())
}

/// Times both programs over a file of many records.
pub fn row(program: &Path) -> io::Result<Row> {
    let file = env::temp_dir().join(format!("bench-day-{}", std::process::id()));
    let row = write_day(&file).and_then(|()| timed(program, &file));
    fs::remove_file(&file)?;
    row
}

/// Seven records in ten with a short body, one with every security part, one of 4 KB, one that is refused.
fn write_day(file: &Path) -> io::Result<()> {
    let records = [
        Sample::plain("", 100).record(),
        Sample::secured("").record(),
        Sample::plain("", 4_096).record(),
        record(false, &[0xFF; 60]),
    ];
    let mut out = BufWriter::new(File::create(file)?);
    for number in 0..RECORDS {
        out.write_all(&records[[0, 0, 1, 0, 0, 2, 0, 0, 3, 0][number % 10]])?;
    }
    out.flush()
}

fn timed(program: &Path, file: &Path) -> io::Result<Row> {
    let mut library = f64::INFINITY;
    let mut independent = f64::INFINITY;
    for _ in 0..RUNS {
        library = library.min(run(&mut Command::new(program), file)?);
        independent = independent.min(run(Command::new(env::current_exe()?).arg(LIST), file)?);
    }
    let bytes = fs::metadata(file)?.len() as usize;
    let what = format!("listing program, a record of {RECORDS} ({} MB)", bytes / 1_000_000);
    let [library, independent] = [library, independent].map(|time| time / RECORDS as f64);
    Ok(Row::new(what, bytes / RECORDS, [(Column::Library, library), (Column::PlainRust, independent)]))
}

/// The time that a program takes to list the file, in nanoseconds.
fn run(program: &mut Command, file: &Path) -> io::Result<f64> {
    let start = Instant::now();
    let status = program.stdin(File::open(file)?).stdout(Stdio::null()).status()?;
    let elapsed = start.elapsed().as_nanos() as f64;
    if !status.success() {
        return Err(io::Error::other(format!("a listing ended with {status}")));
    }
    Ok(elapsed)
}
