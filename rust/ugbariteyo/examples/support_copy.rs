//! Writes the support copy of the section in a file to another file: the section with every private bit zero.
//!
//! ```text
//! cargo run --example support_copy -- [security] FILE COPY
//! ```
//!
//! The word `security` says that a SecurityHeader stands first. Nothing is written where the section is
//! refused.

use std::env;
use std::error::Error;
use std::fs;

use ugbariteyo::{same_summary, support_copy_vec, First};

fn main() -> Result<(), Box<dyn Error>> {
    let args: Vec<String> = env::args().skip(1).collect();
    let (file, copy_file, first) = match args.iter().map(String::as_str).collect::<Vec<_>>()[..] {
        ["security", file, copy] => (file, copy, First::SecurityHeader),
        [file, copy] => (file, copy, First::PropertiesHeader),
        _ => return Err("usage: support_copy [security] FILE COPY".into()),
    };
    let input = fs::read(file)?;
    let copy = support_copy_vec(&input, first)?;
    fs::write(copy_file, &copy)?;
    println!("{} of {} bytes copied", copy.len(), input.len());
    println!("same summary: {}", same_summary(&input, &copy, first));
    Ok(())
}
