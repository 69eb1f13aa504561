//! Writes the section of a send request with a title and a body, reads it back and prints both.
//!
//! ```text
//! cargo run --example send_request -- TITLE BODY
//! ```

use std::env;
use std::error::Error;

use ugbariteyo::{defaulted, read, send_vec, Body, Properties, Request};

fn main() -> Result<(), Box<dyn Error>> {
    let args: Vec<String> = env::args().skip(1).collect();
    let [title, body] = &args[..] else {
        return Err("usage: send_request TITLE BODY".into());
    };
    let title: Vec<u16> = title.encode_utf16().collect();
    let body = Some(Body::from(body.as_bytes()));
    let request = Request { title: &title, body, ..Request::new(3_600, 86_400) };

    let properties = defaulted(&request)?;
    if let Some(handling) = properties.handling {
        println!("priority        {}", handling.priority);
        println!("delivery        {}", handling.delivery);
    }
    print_times(&properties);
    println!("title           {:?}", properties.title);

    let (bytes, first) = send_vec(&request)?;
    let section = read(&bytes, first)?;
    println!("section length  {}", section.section_length());
    println!("class           {:#06x}", section.message_class());
    println!("label           {} units, {:?}", section.label_length().0, section.label_text());
    println!("body            {:?}", String::from_utf8_lossy(section.body()));
    print_times(&section.properties());
    Ok(())
}

/// Prints both times, which a section does not carry.
fn print_times(properties: &Properties<'_>) {
    match properties.handling {
        Some(handling) => {
            println!("time to queue   {} seconds", handling.time_to_queue);
            println!("time to live    {} seconds", handling.time_to_live);
        }
        None => println!("both times      not known"),
    }
}
