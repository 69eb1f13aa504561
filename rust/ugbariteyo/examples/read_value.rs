//! Reads the section in a file, whose body is a single number, and prints the number; then sends the number on in a
//! section of its own and reads that back.
//!
//! ```text
//! cargo run --example read_value -- [security] FILE
//! ```
//!
//! The word `security` says that a SecurityHeader stands first. Where there is no number, standard error says why and
//! the exit status is 1.

use std::env;
use std::error::Error;
use std::ffi::OsString;
use std::fs;
use std::io::{self, Write};
use std::process::ExitCode;

use ugbariteyo::{read_value, send_vec, write_value_vec, Body, BodyValue, First, Refusal, Request};

fn main() -> ExitCode {
    let args: Vec<OsString> = env::args_os().skip(1).collect();
    if let Err(why) = show_file(&args, &mut io::stdout()) {
        eprintln!("{why}");
        return ExitCode::FAILURE;
    }
    ExitCode::SUCCESS
}

/// Writes the number of the file that is named to `out`, and what was sent and read back.
pub fn show_file(args: &[OsString], out: &mut impl Write) -> Result<(), Box<dyn Error>> {
    match args {
        [word, file] if word == "security" => show(&fs::read(file)?, First::SecurityHeader, out),
        [file] => show(&fs::read(file)?, First::PropertiesHeader, out),
        _ => Err("usage: read_value [security] FILE".into()),
    }
}

/// The same for the section at the start of `input`.
pub fn show(input: &[u8], first: First, out: &mut impl Write) -> Result<(), Box<dyn Error>> {
    let value = read_value(input, first)?;
    writeln!(out, "read: {}", words(value))?;
    let (section, first) = send_value(value)?;
    writeln!(out, "sent: {} bytes", section.len())?;
    writeln!(out, "read back: {}", words(read_value(&section, first)?))?;
    Ok(())
}

/// The section of a message whose body is this number, and which header stands first in it.
pub fn send_value(value: BodyValue) -> Result<(Vec<u8>, First), Refusal> {
    let title: Vec<u16> = "Flux".encode_utf16().collect();
    let bytes = write_value_vec(value);
    let (body_type, body) = (Some(value.body_type()), Some(Body::from(&bytes[..])));
    send_vec(&Request { title: &title, body_type, body, ..Request::new(60, 3_600) })
}

/// The number, and its bits, which tell one NaN from another.
fn words(value: BodyValue) -> String {
    let number = match value {
        BodyValue::I32(number) => number.to_string(),
        BodyValue::U32(number) => number.to_string(),
        BodyValue::F32(number) => number.to_string(),
        BodyValue::F64(number) => number.to_string(),
    };
    format!("BodyType {}, {number} ({:#x})", value.body_type(), value.bits())
}
