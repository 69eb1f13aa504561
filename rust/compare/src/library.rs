//! The proved library as one side, called through its safe crate; the listing through its program.

use std::env;
use std::fs::{self, File};
use std::io::{self, ErrorKind, Read, Seek, Write};
use std::path::{Path, PathBuf};
use std::process::{self, Command, Stdio};
use std::slice;
use std::sync::atomic::{AtomicUsize, Ordering};
use std::sync::OnceLock;
use std::thread;

use independent::queue::Value;
use ugbariteyo as library;

use crate::held::Held;
use crate::lend::lend_table;
use crate::side::{Answer, BodyValue, FieldAt, Handling, Image, Line, Next, Part, Parts, Portions};
use crate::side::{Privacy, Properties, Reading, Record, Records, Refusal, Request, SectionValues};
use crate::side::{Security, Sender, Sent, Side, Slot, Source, Summary, Told};

/// Where the listing program lies where nothing else is said.
const LISTING: &str = concat!(env!("CARGO_MANIFEST_DIR"), "/../../target/bin/listing");

/// The proved library.
pub struct Library {
    listing: PathBuf,
}

impl Library {
    /// The library with the listing program at `listing`, else where the environment's LISTING says, else in the
    /// repository's `target/bin`.
    pub fn new(listing: Option<PathBuf>) -> Self {
        let listing = listing.or_else(|| env::var_os("LISTING").map(PathBuf::from));
        Self { listing: listing.unwrap_or_else(|| LISTING.into()) }
    }

    /// The listing program, which has to be there.
    pub fn listing(&self) -> io::Result<&Path> {
        if self.listing.is_file() {
            return Ok(&self.listing);
        }
        let place = self.listing.display();
        let why =
            format!("there is no listing program at {place}: build it, or say in LISTING where it lies");
        Err(io::Error::new(ErrorKind::NotFound, why))
    }
}

impl Side for Library {
    fn read<'a>(&self, input: &'a [u8], security_first: bool) -> Answer<Reading<'a>> {
        library::read(input, first(security_first)).map(|section| reading(&section)).map_err(refusal)
    }
    fn summarize<'a>(&self, input: &'a [u8], security_first: bool) -> Answer<Summary<'a>> {
        library::summarize(input, first(security_first)).map(summary).map_err(refusal)
    }
    fn summarize_nameless<'a>(&self, input: &'a [u8], security_first: bool) -> Answer<Summary<'a>> {
        let found = library::summarize(input, first(security_first)).map_err(refusal)?;
        Ok(summary(found.without_provider_name()))
    }
    fn portions(&self, security_first: bool) -> Box<dyn Portions> {
        Box::new(Held {
            state: library::Portions::new(first(security_first)),
            portion: |state, bytes| state.portion(bytes).map_err(refusal),
            finish: |state| state.finish().map(summary).map_err(refusal),
        })
    }
    fn same_summary(&self, a: &[u8], b: &[u8], security_first: bool) -> bool {
        library::same_summary(a, b, first(security_first))
    }
    fn label_shown<'a>(&self, input: &'a [u8], security_first: bool, stand_in: &'a [u8]) -> &'a [u8] {
        library::label_shown(input, first(security_first), stand_in)
    }
    fn field_at(&self, input: &[u8], security_first: bool, place: usize) -> FieldAt {
        field_at(input, first(security_first), place)
    }
    fn field_of(&self, input: &[u8], security_first: bool, refusal: Refusal) -> FieldAt {
        field_of(input, first(security_first), refusal)
    }
    fn support_copy(&self, input: &[u8], security_first: bool, out: &mut [u8]) -> Answer<usize> {
        library::support_copy(input, first(security_first), out).map_err(refusal)
    }
    fn is_support_copy(&self, input: &[u8], security_first: bool, copy: &[u8]) -> bool {
        library::is_support_copy(input, first(security_first), copy)
    }
    fn write_section(&self, values: &SectionValues<'_>, out: &mut [u8]) -> Answer<usize> {
        library::write_section(&section_values(values), out).map_err(refusal)
    }
    fn write_again(&self, input: &[u8], security_first: bool, out: &mut [u8]) -> Answer<usize> {
        let section = library::read(input, first(security_first)).map_err(refusal)?;
        library::write_section(&library::SectionValues::from(&section), out).map_err(refusal)
    }
    fn read_value(&self, input: &[u8], security_first: bool) -> Answer<BodyValue> {
        library::read_value(input, first(security_first)).map(value).map_err(refusal)
    }
    fn value_of_section(&self, input: &[u8], security_first: bool) -> Answer<BodyValue> {
        let section = library::read(input, first(security_first)).map_err(refusal)?;
        section.body_value().map(value).map_err(refusal)
    }
    fn value_of(&self, body_type: u32, body: &[u8]) -> Answer<BodyValue> {
        library::value_of(body_type, body).map(value).map_err(refusal)
    }
    fn write_value(&self, value: BodyValue, out: &mut [u8]) -> Answer<usize> {
        library::write_value(value_taken(value), out).map_err(refusal)
    }
    fn told(&self, value: BodyValue) -> Told {
        let value = value_taken(value);
        let body = library::write_value_vec(value);
        Told { body_type: value.body_type(), bits: value.bits(), size: value.size(), body }
    }
    fn same_value(&self, one: BodyValue, other: BodyValue) -> bool {
        value_taken(one) == value_taken(other)
    }
    fn read_image<'a>(&self, input: &'a [u8]) -> Answer<Image<'a>> {
        library::read_image(input).map(image).map_err(refusal)
    }
    fn write_image(&self, format: [u8; 2], fixed: &[u8], text: &[u8], out: &mut [u8]) -> Answer<usize> {
        let format = library::QueueFormat { kind: format[0], suffix_and_flags: format[1] };
        library::write_image_parts(format, fixed, text, out).map_err(refusal)
    }
    fn defaulted<'a>(&self, values: &Request<'a>) -> Answer<Properties<'a>> {
        library::defaulted(&request(values)).map(properties).map_err(refusal)
    }
    fn properties<'a>(&self, input: &'a [u8], security_first: bool) -> Answer<Properties<'a>> {
        let section = library::read(input, first(security_first)).map_err(refusal)?;
        Ok(properties(section.properties()))
    }
    fn send(&self, values: &Request<'_>, out: &mut [u8]) -> Answer<Sent> {
        let sent = library::send(&request(values), out).map_err(refusal)?;
        Ok(Sent { length: sent.length, security_first: security_first(sent.first) })
    }
    fn next_record<'a>(&self, rest: &'a [u8]) -> Next<'a> {
        match library::next_record(rest) {
            library::Next::End => Next::End,
            library::Next::Stop => Next::Stop,
            library::Next::Found(found) => Next::Found(record(&found)),
        }
    }
    fn records<'a>(&self, file: &'a [u8]) -> Records<'a> {
        let mut records = library::records(file);
        let mut stop = None;
        let whole = records.by_ref().map_while(|next| next.map_err(|why| stop = Some(why)).ok());
        let whole = whole.map(|found| record(&found)).collect();
        assert!(records.next().is_none(), "an iterator that ended stays ended");
        Records { whole, stop: stop.map(|stop| (stop.number, stop.place)) }
    }
    fn read_day(&self, file: &[u8], table: &mut [Slot]) -> Answer<usize> {
        let stood = slots_before();
        lend_table(
            table,
            |at| stood[at % stood.len()],
            |slots| library::read_day(file, slots).map_err(refusal),
            |slot| slot.answer().map(answer),
        )
    }
    fn list(&self, file: &[u8], source: Source) -> io::Result<Vec<u8>> {
        let stdin = match source {
            Source::Pipe => Stdio::piped(),
            Source::File => unnamed(file)?.into(),
        };
        let mut program = Command::new(self.listing()?).stdin(stdin).stdout(Stdio::piped()).spawn()?;
        let stdin = program.stdin.take();
        let mut stdout = program.stdout.take().expect("the output is a pipe");
        let mut lines = Vec::new();
        thread::scope(|threads| {
            let fed = threads.spawn(move || stdin.map_or(Ok(()), |mut pipe| pipe.write_all(file)));
            stdout.read_to_end(&mut lines)?;
            match fed.join().expect("feeding does not panic") {
                // it may stop before the end
                Err(error) if error.kind() != ErrorKind::BrokenPipe => Err(error),
                _ => Ok(()),
            }
        })?;
        let status = program.wait()?;
        if status.code().is_none() {
            return Err(io::Error::other(format!("the listing program ended with {status}")));
        }
        Ok(lines)
    }
}

/// A file with this content, open at its start, whose name is gone already.
pub(crate) fn unnamed(content: &[u8]) -> io::Result<File> {
    static FILES: AtomicUsize = AtomicUsize::new(0);
    let number = FILES.fetch_add(1, Ordering::Relaxed);
    let name = env::temp_dir().join(format!("compare-day-{}-{number}", process::id()));
    let mut file = File::options().read(true).write(true).create_new(true).open(&name)?;
    fs::remove_file(&name)?;
    file.write_all(content)?;
    file.rewind()?;
    Ok(file)
}

/// Which header stands first.
pub fn first(security_first: bool) -> library::First {
    if security_first {
        library::First::SecurityHeader
    } else {
        library::First::PropertiesHeader
    }
}

fn security_first(first: library::First) -> bool {
    first == library::First::SecurityHeader
}

fn record<'a>(record: &library::Record<'a>) -> Record<'a> {
    Record {
        size: record.size,
        security_first: security_first(record.first),
        section: record.section,
        answer: answer(record.answer),
    }
}

/// What a record's line says.
fn answer(answer: Result<library::Line, library::Refusal>) -> Answer<Line> {
    let line = |line: library::Line| Line {
        class: line.message_class,
        label: line.label_length.0,
        extension: line.extension_size as u32,
        body: line.message_size as u32,
        total: line.section_length,
    };
    answer.map(line).map_err(refusal)
}

/// Slots to stand in a lent table: one that no call has filled, and one for each of the classes 0 to 3, of which the
/// last is refused. No two are the same.
fn slots_before() -> &'static [library::DaySlot; 5] {
    static SLOTS: OnceLock<[library::DaySlot; 5]> = OnceLock::new();
    SLOTS.get_or_init(|| {
        let mut slots = [library::DaySlot::default(); 5];
        for (slot, class) in slots[1..].iter_mut().zip(0..) {
            let mut record = [b"WR\0\0\x38\0\0\0", &[0; 56][..]].concat();
            record[8 + 2] = class;
            let read = library::read_day(&record, slice::from_mut(slot));
            assert_eq!(read, Ok(1), "the slot is filled");
        }
        slots
    })
}

fn refusal(refusal: library::Refusal) -> Refusal {
    Refusal { number: refusal.number, place: refusal.place }
}

/// The field at a place, as the library names it.
fn field_at(input: &[u8], first: library::First, place: usize) -> FieldAt {
    named(library::field_at(input, first, place))
}

/// The field of a refusal, as the library names it.
fn field_of(input: &[u8], first: library::First, refusal: Refusal) -> FieldAt {
    named(library::Refusal { number: refusal.number, place: refusal.place }.field(input, first))
}

fn named(found: Option<library::FieldAt>) -> FieldAt {
    found.map_or(FieldAt::default(), |found| FieldAt { field: found.field as u32, offset: found.offset })
}

fn part(part: library::Part) -> Part {
    Part { start: part.start, length: part.length }
}

fn reading<'a>(section: &library::Reading<'a>) -> Reading<'a> {
    Reading {
        summary: summary(section.summary()),
        correlation_id: section.correlation_id(),
        application_tag: section.application_tag(),
        parts: [
            section.sender_id(),
            section.encryption_key(),
            section.signature(),
            section.sender_cert(),
            section.provider_info(),
            section.label(),
            section.extension(),
            section.body(),
        ],
    }
}

fn summary(summary: library::Summary<'_>) -> Summary<'_> {
    let mut parts = Parts {
        label: part(summary.label_part),
        extension: part(summary.extension),
        body: part(summary.body),
        ..Parts::default()
    };
    let security = summary.security.map(|header| security(&header, &mut parts));
    Summary {
        security,
        flags: summary.flags.0,
        label_length: summary.label_length.0,
        message_class: summary.message_class,
        body_type: summary.body_type,
        message_size: summary.message_size as u64,
        allocation_body_size: summary.allocation_body_size as u64,
        privacy_level: summary.privacy_level,
        hash_algorithm: summary.hash_algorithm,
        encryption_algorithm: summary.encryption_algorithm,
        extension_size: summary.extension_size as u64,
        authentication_fails: summary.authentication_fails,
        decryption_fails: summary.decryption_fails,
        retired: summary.retired,
        parts,
        length: summary.section_length,
        label: summary.label.bytes(),
    }
}

/// The SecurityHeader; its parts go into `parts`.
fn security<'a>(header: &library::Security<'a>, parts: &mut Parts) -> Security<'a> {
    parts.identity = part(header.sender_id);
    parts.key = part(header.encryption_key);
    parts.signature = part(header.signature);
    parts.certificate = part(header.sender_cert);
    parts.provider = part(header.provider_info);
    let five = [parts.identity, parts.key, parts.signature, parts.certificate, parts.provider];
    Security {
        flags: header.flags.0,
        sizes: five.map(|part| part.length as u64),
        sid: [header.sid_revision, header.sid_sub_authority_count],
        length: header.length,
        provider_type: header.provider_type,
        provider_name: header.provider_name.bytes(),
    }
}

/// The values as the library takes them.
pub fn section_values<'a>(values: &SectionValues<'a>) -> library::SectionValues<'a> {
    library::SectionValues {
        first: first(values.security_first),
        security_flags: library::SecurityFlags(values.security_flags),
        sender_id: values.sender_id,
        encryption_key: values.encryption_key,
        signature: values.signature,
        sender_cert: values.sender_cert,
        provider_info: values.provider_info,
        flags: library::PropertiesFlags(values.flags),
        message_class: values.message_class,
        correlation_id: values.correlation_id,
        body_type: values.body_type,
        application_tag: values.application_tag,
        allocation_body_size: values.allocation_body_size as usize,
        privacy_level: values.privacy_level,
        hash_algorithm: values.hash_algorithm,
        encryption_algorithm: values.encryption_algorithm,
        label: values.label,
        extension: values.extension,
        body: values.body,
    }
}

/// A number that the library read.
fn value(value: library::BodyValue) -> BodyValue {
    match value {
        library::BodyValue::I32(number) => BodyValue::I32(number),
        library::BodyValue::U32(number) => BodyValue::U32(number),
        library::BodyValue::F32(number) => BodyValue::F32(number),
        library::BodyValue::F64(number) => BodyValue::F64(number),
    }
}

/// A number as the library takes it.
fn value_taken(value: BodyValue) -> library::BodyValue {
    match value {
        BodyValue::I32(number) => library::BodyValue::I32(number),
        BodyValue::U32(number) => library::BodyValue::U32(number),
        BodyValue::F32(number) => library::BodyValue::F32(number),
        BodyValue::F64(number) => library::BodyValue::F64(number),
    }
}

fn image(image: library::Image<'_>) -> Image<'_> {
    let value = match image.value {
        library::Value::Nothing => Value::None,
        library::Value::Guid(guid) => Value::Guid(guid),
        library::Value::ObjectId(id) => Value::ObjectId(id),
        library::Value::MulticastId(id) => Value::MulticastId(id),
        library::Value::Text(text) => Value::Text(text.bytes()),
        library::Value::GuidAndText(guid, text) => Value::GuidAndText(guid, text.bytes()),
    };
    Image { kind: image.format.kind, suffix_and_flags: image.format.suffix_and_flags, value }
}

/// The request as the library takes it.
pub fn request<'a>(request: &Request<'a>) -> library::Request<'a> {
    library::Request {
        time_to_queue: request.time_to_queue,
        time_to_live: request.time_to_live,
        priority: request.priority,
        trace: request.trace,
        delivery: request.delivery,
        auditing: request.auditing,
        message_class: request.class,
        acknowledge: request.acknowledge,
        application_tag: request.application_tag,
        privacy_level: request.privacy_level,
        hash_algorithm: request.hash_algorithm,
        encryption_algorithm: request.encryption_algorithm,
        body_type: request.body_type,
        sender_kind: request.sender_kind,
        provider_type: request.provider_type,
        split_number: request.split_number,
        provider_name_length: request.provider_name_length,
        correlation_id: request.correlation_id,
        transaction: request.transaction,
        direct_queue: request.direct_queue,
        default_provider: request.default_provider,
        encryption: request.encryption,
        title: request.title,
        sender_id: request.sender_id,
        encryption_key: request.encryption_key,
        signature: request.signature,
        sender_cert: request.sender_cert,
        provider_name: request.provider_name,
        extension: request.extension,
        body: request
            .body
            .map(|(bytes, allocation)| library::Body { bytes, allocation: allocation as usize }),
    }
}

fn properties(found: library::Properties<'_>) -> Properties<'_> {
    Properties {
        handling: found.handling.map(handling),
        sender: found.sender.map(sender),
        provider_type: found.provider_type,
        class: found.message_class,
        acknowledge: found.acknowledge,
        application_tag: found.application_tag,
        privacy_level: match found.privacy_level {
            library::Privacy::Request(level) => Privacy::Request(level),
            library::Privacy::Packet(level) => Privacy::Packet(level),
        },
        hash_algorithm: found.hash_algorithm,
        encryption_algorithm: found.encryption_algorithm,
        body_type: found.body_type,
        body_sizes: [found.message_size as u64, found.allocation_body_size as u64],
        correlation_id: found.correlation_id,
        title: found.title.units().collect(),
        title_length: found.title.length().0 as usize,
        signature: found.signature,
    }
}

fn handling(handling: library::Handling) -> Handling {
    Handling {
        priority: handling.priority,
        trace: handling.trace,
        delivery: handling.delivery,
        auditing: handling.auditing,
        transaction: handling.transaction,
        direct_queue: handling.direct_queue,
        split_number: handling.split_number,
        provider_name_length: handling.provider_name_length,
        time_to_queue: handling.time_to_queue,
        time_to_live: handling.time_to_live,
    }
}

fn sender(sender: library::Sender) -> Sender {
    Sender { kind: sender.kind, default_provider: sender.default_provider, encryption: sender.encryption }
}
