//! Reads the section in a file in portions, a few bytes at a time, and prints its summary, or the refusal.
//!
//! ```text
//! cargo run --example read_portions -- [security] FILE BYTES
//! ```
//!
//! The word `security` says that a SecurityHeader stands first; a portion has BYTES bytes, 1 to 255. The exit status is
//! 1 where the section is refused, and 2 where the words are wrong or reading or printing fails.

use std::env;
use std::error::Error;
use std::fs::File;
use std::io::{self, Read, Write};
use std::num::NonZeroU8;
use std::process::ExitCode;

use ugbariteyo::{First, Portions, Summary};

fn main() -> ExitCode {
    let args: Vec<String> = env::args().skip(1).collect();
    match show_file(&args.iter().map(String::as_str).collect::<Vec<_>>()) {
        Ok(true) => ExitCode::SUCCESS,
        Ok(false) => ExitCode::FAILURE,
        Err(error) => {
            eprintln!("{error}");
            ExitCode::from(2)
        }
    }
}

fn show_file(args: &[&str]) -> Result<bool, Box<dyn Error>> {
    let (file, bytes, first) = match args {
        ["security", file, bytes] => (file, bytes, First::SecurityHeader),
        [file, bytes] => (file, bytes, First::PropertiesHeader),
        _ => return Err("usage: read_portions [security] FILE BYTES".into()),
    };
    show(File::open(file)?, first, bytes.parse()?, &mut io::stdout())
}

/// Writes the summary of the section that comes from `link`, so many bytes at a time, to `out`, or the refusal. Says
/// whether it is accepted.
pub fn show(
    mut link: impl Read,
    first: First,
    bytes: NonZeroU8,
    out: &mut impl Write,
) -> Result<bool, Box<dyn Error>> {
    let mut buffer = [0; 255];
    let buffer = &mut buffer[..bytes.get().into()];
    let mut portions = Portions::new(first);
    loop {
        match link.read(buffer)? {
            0 => break,
            length => portions.portion(&buffer[..length])?,
        }
    }
    let answer = portions.finish();
    match &answer {
        Ok(summary) => show_summary(summary, out)?,
        Err(refusal) => writeln!(out, "{refusal}")?,
    }
    Ok(answer.is_ok())
}

/// Writes what a summary says, but for the provider's name, to `out`.
pub fn show_summary(summary: &Summary<'_>, out: &mut impl Write) -> io::Result<()> {
    writeln!(out, "section length        {}", summary.section_length)?;
    if let Some(security) = &summary.security {
        writeln!(out, "security flags        {:#06x}", security.flags.0)?;
        writeln!(out, "signature             {} bytes", security.signature.length)?;
        if let Some(kind) = security.provider_type {
            writeln!(
                out,
                "provider              type {kind}, info of {} bytes",
                security.provider_info.length
            )?;
        }
    }
    writeln!(out, "class                 {:#06x}", summary.message_class)?;
    writeln!(out, "label                 {} units, {:?}", summary.label_length.0, summary.label)?;
    writeln!(out, "extension             {} bytes", summary.extension_size)?;
    writeln!(out, "body                  {} bytes", summary.message_size)?;
    writeln!(out, "authentication fails  {}", summary.authentication_fails)?;
    writeln!(out, "decryption fails      {}", summary.decryption_fails)?;
    writeln!(out, "retired               {}", summary.retired)
}
