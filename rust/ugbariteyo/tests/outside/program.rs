//! What a program does with the crate: sends, reads, copies, writes again and lists.

use std::error::Error;

use ugbariteyo::{read, records, send_vec, support_copy_vec, write_section_vec, Body, First, Request, SectionValues};

fn main() -> Result<(), Box<dyn Error>> {
    let title: Vec<u16> = "Rope 7".encode_utf16().collect();
    let body = Body::from(&b"second"[..]);
    let request = Request { title: &title, sender_cert: b"cert", body: Some(body), ..Request::new(3_600, 86_400) };
    let (sent, first) = send_vec(&request)?;

    let section = read(&sent, first)?;
    println!("sent {} of {} bytes, {first:?} first", section.label_text(), section.section_length());
    let copy = support_copy_vec(&sent, first)?;
    println!("copied, body {:?}", read(&copy, first)?.body());
    println!("written again: {}", write_section_vec(&SectionValues::from(&section))? == sent);

    let length = u32::try_from(sent.len())?.to_le_bytes();
    let day = [b"WR", &[u8::from(first == First::SecurityHeader), 0][..], &length, &sent, b"WR"].concat();
    for record in records(&day) {
        match record {
            Ok(record) => println!("record of {} bytes, section of {}", record.size, record.answer?.section_length),
            Err(stop) => println!("{stop}"),
        }
    }
    println!("{}", read(&sent[..20], first).unwrap_err());
    Ok(())
}
