//! Message-queue sections (an optional SecurityHeader and a MessagePropertiesHeader), their support copies, bodies that
//! are a number, queue formats, send requests and the records of a day's file: a safe interface to the proved library.
//!
//! Every call answers for every input: the answer, or a [`Refusal`] with its number and place. Nothing has to
//! be checked beforehand, no call panics, a refusal leaves a lent output as it stood (but for the slots that
//! [`read_day`] fills before a bad record), and what is read is borrowed from the input, or from the [`Portions`] that
//! took it.
//!
//! The functions behind this crate are proved to answer as the exact rules say. What is not proved is this
//! crate itself: it lends the slices, and takes the parts out of the input by their places.
//!
//! # Reading a section
//!
//! ```
//! use ugbariteyo::{read, First, Kind};
//!
//! let mut input = [0; 60];
//! input[32] = 3; // MessageSize
//! input[36] = 3; // AllocationBodySize
//! input[56..59].copy_from_slice(b"two");
//!
//! let section = read(&input, First::PropertiesHeader)?;
//! assert_eq!(section.body(), b"two");
//! assert_eq!(section.section_length(), 60);
//!
//! let refusal = read(&input[..59], First::PropertiesHeader).unwrap_err();
//! assert_eq!(refusal.kind(), Some(Kind::InputShort));
//! assert_eq!(refusal.to_string(), "refused with 1 at 0: input ends before the section does");
//! # Ok::<(), ugbariteyo::Refusal>(())
//! ```
//!
//! # A section in portions
//!
//! Over a slow link a section comes a few bytes at a time. [`Portions`] takes them as they come, has 664 bytes whatever
//! the section's length, and gives the summary once the sender is finished, with the label and without the provider's
//! name.
//!
//! ```no_run
//! use std::io::Read;
//! use ugbariteyo::{First, Portions};
//!
//! let mut link = std::net::TcpStream::connect("scanner:1801")?;
//! let mut portions = Portions::new(First::SecurityHeader);
//! let mut buffer = [0; 32];
//! loop {
//!     match link.read(&mut buffer)? {
//!         0 => break,
//!         length => portions.portion(&buffer[..length])?,
//!     }
//! }
//! println!("{}", portions.finish()?.label);
//! # Ok::<(), Box<dyn std::error::Error>>(())
//! ```
//!
//! # Which field was refused
//!
//! A refusal's place is the first byte of the field that failed, and the field has a name.
//!
//! ```
//! use ugbariteyo::{read, Field, First, Kind};
//!
//! let mut input = [0; 72];
//! input[1] = 8; // LabelLength
//! input[56..72].fill(b'x'); // a label whose last unit is not zero
//!
//! let refusal = read(&input, First::PropertiesHeader).unwrap_err();
//! assert_eq!((refusal.kind(), refusal.place), (Some(Kind::Label), 70));
//! let at = refusal.field(&input, First::PropertiesHeader).unwrap();
//! assert_eq!((at.field, at.unit()), (Field::Label, Some(7)));
//! assert_eq!(at.to_string(), "label unit 7");
//! ```
//!
//! # A support copy
//!
//! The copy holds what is judged and nothing private; it reads to the same summary.
//!
//! ```
//! use ugbariteyo::{same_summary, support_copy_vec, First};
//!
//! let mut input = [0; 60];
//! input[32] = 3;
//! input[36] = 3;
//! input[56..59].copy_from_slice(b"two");
//!
//! let copy = support_copy_vec(&input, First::PropertiesHeader)?;
//! assert_eq!(copy[56..59], [0; 3]);
//! assert!(same_summary(&input, &copy, First::PropertiesHeader));
//! # Ok::<(), ugbariteyo::Refusal>(())
//! ```
//!
//! # A copy that another made
//!
//! Partners make copies with tools of their own. [`is_support_copy`] says whether one is the support copy, without
//! making it.
//!
//! ```
//! use ugbariteyo::{is_support_copy, First};
//!
//! let mut input = [0; 60];
//! input[32] = 3;
//! input[36] = 3;
//! input[56..59].copy_from_slice(b"two");
//!
//! let mut theirs = input;
//! assert!(!is_support_copy(&input, First::PropertiesHeader, &theirs));
//! theirs[56..59].fill(0);
//! assert!(is_support_copy(&input, First::PropertiesHeader, &theirs));
//! ```
//!
//! # A body's number
//!
//! A flux reading comes as a body of a single number. [`read_value`] gives the number of a section, [`value_of`] that
//! of a body which had to be decrypted first, and [`write_value`] the body of a number to send. A [`BodyValue`] keeps
//! every bit pattern, so that what was read is written as the same bytes.
//!
//! ```
//! use ugbariteyo::{read_value, send_vec, write_value_vec, Body, BodyValue, Request};
//!
//! let flux = BodyValue::F64(-12.625);
//! let body = write_value_vec(flux);
//! let request = Request {
//!     body_type: Some(flux.body_type()),
//!     body: Some(Body::from(&body[..])),
//!     ..Request::new(60, 3_600)
//! };
//! let (section, first) = send_vec(&request)?;
//! assert_eq!(read_value(&section, first)?, flux);
//! # Ok::<(), ugbariteyo::Refusal>(())
//! ```
//!
//! # The properties of a message
//!
//! A request gives two times, in seconds: within the first its message has to reach the queue, within the second it has
//! to be received. They are among the [`Properties`] that [`defaulted`] makes from the request. A section carries
//! neither: the properties of one that was read have what it carries, and the rest is not known.
//!
//! ```
//! use ugbariteyo::{defaulted, read, send_vec, Request};
//!
//! let request = Request { application_tag: Some(7), ..Request::new(60, 3_600) };
//! let properties = defaulted(&request)?;
//! assert_eq!(properties.handling.map(|handling| handling.time_to_live), Some(3_600));
//!
//! let (section, first) = send_vec(&request)?;
//! let properties = read(&section, first)?.properties();
//! assert_eq!((properties.application_tag, properties.handling), (7, None));
//! # Ok::<(), ugbariteyo::Refusal>(())
//! ```
//!
//! # The records of a day's file
//!
//! ```no_run
//! for record in ugbariteyo::records(&std::fs::read("day.bin")?) {
//!     let record = record?; // a wrong or cut record stops
//!     match record.answer {
//!         Ok(line) => println!("class {}, {} bytes", line.message_class, line.section_length),
//!         Err(refusal) => println!("{refusal}"),
//!     }
//! }
//! # Ok::<(), Box<dyn std::error::Error>>(())
//! ```
//!
//! # A day's file in a single call
//!
//! [`read_day`] fills a lent table, a slot a record, of a file with at most [`DAY_MOST`] records.
//!
//! ```no_run
//! use ugbariteyo::{read_day, DaySlot, DAY_MOST};
//!
//! let mut table = [DaySlot::default(); DAY_MOST];
//! let records = read_day(&std::fs::read("day.bin")?, &mut table)?;
//! let accepted = table[..records].iter().filter_map(DaySlot::answer).flatten();
//! println!("{} of {records} sections are accepted", accepted.count());
//! # Ok::<(), Box<dyn std::error::Error>>(())
//! ```
//!
//! # Building
//!
//! The proved library is `libugbariteyo.a`, for x86-64 Linux. `build.rs` links it from the directory in the variable
//! `UGBARITEYO_LIB_DIR`, else from the repository's `target/lib`. Where it is not there yet, the first build
//! makes it with the script `archive`, which takes minutes and says so on the terminal. An archive that is there
//! is taken as it is: after a change of the proved crates, run that command again.

#![deny(missing_docs)]
#![deny(unsafe_code)]
#![warn(clippy::missing_errors_doc)]

mod copy;
mod day;
mod ffi;
mod field;
mod flags;
mod part;
mod portions;
mod properties;
mod queue;
mod reading;
mod record;
mod refusal;
mod request;
mod section;
mod summary;
mod text;
mod value;
mod write;

pub use copy::{is_support_copy, support_copy, support_copy_vec};
pub use day::{read_day, DaySlot, DAY_MOST};
pub use field::{field_at, Field, FieldAt};
pub use flags::{PropertiesFlags, SecurityFlags};
pub use part::Part;
pub use portions::Portions;
pub use properties::{Handling, Privacy, Properties, Sender};
pub use queue::{read_image, write_image, write_image_parts, Image, QueueFormat, Value};
pub use reading::Reading;
pub use record::{next_record, records, Line, Next, Record, Records, Stop};
pub use refusal::{Kind, Refusal};
pub use request::{defaulted, send, send_vec, Body, Request, Sent};
pub use section::{label_shown, read, same_summary, summarize, First, LIMIT};
pub use summary::{Security, Summary};
pub use text::{text_bytes, Text, Title, Units};
pub use value::{read_value, value_of, write_value, write_value_vec, BodyValue};
pub use write::{write_section, write_section_vec, SectionValues};
