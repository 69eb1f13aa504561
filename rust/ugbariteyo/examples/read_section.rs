//! Reads the section in a file and prints its values, or the refusal and its field. Of private parts it prints
//! the lengths alone.
//!
//! ```text
//! cargo run --example read_section -- [security] FILE
//! ```
//!
//! The word `security` says that a SecurityHeader stands first.

use std::env;
use std::error::Error;
use std::fs;

use ugbariteyo::{read, First, PropertiesFlags, Reading, Refusal};

fn main() -> Result<(), Box<dyn Error>> {
    let args: Vec<String> = env::args().skip(1).collect();
    let (file, first) = match args.iter().map(String::as_str).collect::<Vec<_>>()[..] {
        ["security", file] => (file, First::SecurityHeader),
        [file] => (file, First::PropertiesHeader),
        _ => return Err("usage: read_section [security] FILE".into()),
    };
    let input = fs::read(file)?;
    match read(&input, first) {
        Ok(section) => print_section(&section),
        Err(refusal) => print_refusal(refusal, &input, first),
    }
    Ok(())
}

fn print_refusal(refusal: Refusal, input: &[u8], first: First) {
    match (refusal.field(input, first), refusal.kind()) {
        (Some(field), Some(kind)) => {
            println!("refused with {} at {} ({field}): {kind}", refusal.number, refusal.place)
        }
        _ => println!("{refusal}"),
    }
}

fn print_section(section: &Reading<'_>) {
    println!("section length        {}", section.section_length());
    if section.first() == First::SecurityHeader {
        let flags = section.security_flags();
        println!("security flags        {:#06x}", flags.0);
        println!("  sender kind         {}", flags.sender_kind());
        println!("  body encrypted      {}", flags.body_encrypted());
        println!("  default provider    {}", flags.default_provider());
        println!("identity              {} bytes", section.sender_id().len());
        println!("key                   {} bytes", section.encryption_key().len());
        println!("signature             {} bytes", section.signature().len());
        println!("certificate           {} bytes", section.sender_cert().len());
        match section.provider_type() {
            Some(kind) => println!("provider              type {kind}, name {:?}", section.provider_name()),
            None => println!("provider              none"),
        }
    }
    let acknowledge = [
        (PropertiesFlags::PA, "PA"),
        (PropertiesFlags::PR, "PR"),
        (PropertiesFlags::NA, "NA"),
        (PropertiesFlags::NR, "NR"),
    ];
    let asked: Vec<_> =
        acknowledge.iter().filter(|(bit, _)| section.flags().has(*bit)).map(|(_, name)| *name).collect();
    println!("acknowledge           {}", if asked.is_empty() { "none".into() } else { asked.join(" ") });
    println!("class                 {:#06x}", section.message_class());
    println!("label                 {} units, {:?}", section.label_length().0, section.label_text());
    println!("extension             {} bytes", section.extension().len());
    println!(
        "body                  {} bytes, {} allocated",
        section.body().len(),
        section.allocation_body_size()
    );
    println!("body type             {:#x}", section.body_type());
    println!("privacy level         {}", section.privacy_level());
    println!("hash algorithm        {:#x}", section.hash_algorithm());
    println!("encryption algorithm  {:#x}", section.encryption_algorithm());
    println!("authentication fails  {}", section.authentication_fails());
    println!("decryption fails      {}", section.decryption_fails());
    println!("retired               {}", section.retired());
}
