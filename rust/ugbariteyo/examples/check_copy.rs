//! Says whether a file is the support copy of the section in another, whoever made it.
//!
//! ```text
//! cargo run --example check_copy -- [security] FILE COPY
//! ```
//!
//! The word `security` says that a SecurityHeader stands first. Of a refused section the refusal is printed too. The
//! exit status is 0 for yes, 1 for no, and 2 where the words are wrong or reading or printing fails.

use std::env;
use std::error::Error;
use std::ffi::OsString;
use std::fs;
use std::io::{self, Write};
use std::process::ExitCode;

use ugbariteyo::{is_support_copy, read, First};

fn main() -> ExitCode {
    let args: Vec<OsString> = env::args_os().skip(1).collect();
    let answer = check(&args, &mut io::stdout());
    if let Err(error) = &answer {
        eprintln!("{error}");
    }
    ExitCode::from(status(&answer))
}

/// Whether it is the copy, which is also written to `out`.
pub fn check(args: &[OsString], out: &mut impl Write) -> Result<bool, Box<dyn Error>> {
    let (file, copy_file, first) = match args {
        [word, file, copy] if word == "security" => (file, copy, First::SecurityHeader),
        [file, copy] => (file, copy, First::PropertiesHeader),
        _ => return Err("usage: check_copy [security] FILE COPY".into()),
    };
    let (input, copy) = (fs::read(file)?, fs::read(copy_file)?);
    let answer = is_support_copy(&input, first, &copy);
    writeln!(out, "support copy: {answer}")?;
    if let Err(refusal) = read(&input, first) {
        writeln!(out, "{refusal}")?;
    }
    Ok(answer)
}

/// The exit status.
pub fn status(answer: &Result<bool, Box<dyn Error>>) -> u8 {
    match answer {
        Ok(true) => 0,
        Ok(false) => 1,
        Err(_) => 2,
    }
}
