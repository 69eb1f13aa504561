//! The independent library as one side.

use std::io;

use independent::{day, field, listing, portions, queue, request, value};

use crate::held::Held;
use crate::lend::lend_table;
use crate::side::{part_of, Answer, BodyValue, FieldAt, Image, Line, Next, Portions, Properties, Reading};
use crate::side::{
    Record, Refusal, Request, Section, SectionValues, Security, Sent, Side, Slot, Source, Summary, Told,
};

/// The independent reader and writer.
pub struct Independent;

impl Side for Independent {
    fn read<'a>(&self, input: &'a [u8], security_first: bool) -> Answer<Reading<'a>> {
        independent::read(input, security_first).map(|section| reading(&section, input))
    }
    fn summarize<'a>(&self, input: &'a [u8], security_first: bool) -> Answer<Summary<'a>> {
        independent::read(input, security_first).map(|section| summary(&section))
    }
    fn summarize_nameless<'a>(&self, input: &'a [u8], security_first: bool) -> Answer<Summary<'a>> {
        let section = independent::read(input, security_first)?;
        Ok(summary_made(section.summary.without_provider_name()))
    }
    fn portions(&self, security_first: bool) -> Box<dyn Portions> {
        Box::new(Held {
            state: portions::Portions::new(security_first),
            portion: portions::Portions::portion,
            finish: |state| state.finish().map(summary_made),
        })
    }
    fn same_summary(&self, a: &[u8], b: &[u8], security_first: bool) -> bool {
        independent::same_summary(a, b, security_first)
    }
    fn label_shown<'a>(&self, input: &'a [u8], security_first: bool, stand_in: &'a [u8]) -> &'a [u8] {
        independent::label_shown(input, security_first, stand_in)
    }
    fn field_at(&self, input: &[u8], security_first: bool, place: usize) -> FieldAt {
        field::field_of(input, security_first, 0, place)
    }
    fn field_of(&self, input: &[u8], security_first: bool, refusal: Refusal) -> FieldAt {
        field::field_of(input, security_first, refusal.number, refusal.place)
    }
    fn support_copy(&self, input: &[u8], security_first: bool, out: &mut [u8]) -> Answer<usize> {
        independent::support_copy(input, security_first, out)
    }
    fn is_support_copy(&self, input: &[u8], security_first: bool, copy: &[u8]) -> bool {
        independent::is_support_copy(input, security_first, copy)
    }
    fn write_section(&self, values: &SectionValues<'_>, out: &mut [u8]) -> Answer<usize> {
        independent::write_section(values, out)
    }
    fn write_again(&self, input: &[u8], security_first: bool, out: &mut [u8]) -> Answer<usize> {
        let section = independent::read(input, security_first)?;
        independent::write_section(&SectionValues::of(&section, input), out)
    }
    fn read_value(&self, input: &[u8], security_first: bool) -> Answer<BodyValue> {
        value::read_value(input, security_first)
    }
    fn value_of_section(&self, input: &[u8], security_first: bool) -> Answer<BodyValue> {
        value::read_value(input, security_first)
    }
    fn value_of(&self, body_type: u32, body: &[u8]) -> Answer<BodyValue> {
        value::value_of(body_type, body)
    }
    fn write_value(&self, value: BodyValue, out: &mut [u8]) -> Answer<usize> {
        value::write_value(value, out)
    }
    fn told(&self, value: BodyValue) -> Told {
        let mut body = vec![0; value.size()];
        value::write_value(value, &mut body).expect("there is room");
        Told { body_type: value.body_type(), bits: value.bits(), size: value.size(), body }
    }
    fn same_value(&self, one: BodyValue, other: BodyValue) -> bool {
        one == other
    }
    fn read_image<'a>(&self, input: &'a [u8]) -> Answer<Image<'a>> {
        queue::read_image(input)
    }
    fn write_image(&self, format: [u8; 2], fixed: &[u8], text: &[u8], out: &mut [u8]) -> Answer<usize> {
        queue::write_image(format[0], format[1], fixed, text, out)
    }
    fn defaulted<'a>(&self, request: &Request<'a>) -> Answer<Properties<'a>> {
        request::defaulted(request).map(properties_made)
    }
    fn properties<'a>(&self, input: &'a [u8], security_first: bool) -> Answer<Properties<'a>> {
        let section = independent::read(input, security_first)?;
        Ok(properties_made(independent::properties::Properties::of(&section)))
    }
    fn send(&self, request: &Request<'_>, out: &mut [u8]) -> Answer<Sent> {
        sent(request, request::send(request, out))
    }
    fn next_record<'a>(&self, rest: &'a [u8]) -> Next<'a> {
        match listing::next_record(rest) {
            listing::Next::End => Next::End,
            listing::Next::Stop => Next::Stop,
            listing::Next::Record { size, answer } => {
                let (head, section) = rest[..size].split_at(listing::HEAD);
                Next::Found(Record { size, security_first: head[2] == 1, section, answer })
            }
        }
    }
    fn read_day(&self, file: &[u8], table: &mut [Slot]) -> Answer<usize> {
        lend_answers(table, |answers| day::read_day(file, answers))
    }
    fn list(&self, file: &[u8], _: Source) -> io::Result<Vec<u8>> {
        let mut lines = Vec::new();
        listing::list(file, &mut lines)?;
        Ok(lines)
    }
}

/// A reading of `input` by the independent library.
pub fn reading<'a>(section: &Section<'a>, input: &'a [u8]) -> Reading<'a> {
    Reading {
        summary: summary(section),
        correlation_id: section.correlation_id,
        application_tag: section.application_tag,
        parts: [
            section.identity,
            section.key,
            section.signature,
            section.certificate,
            part_of(section.summary.parts.provider, input),
            section.summary.properties.label,
            section.extension,
            section.body,
        ],
    }
}

/// Lends `read` tables of the independent library.
pub fn lend_answers(
    table: &mut [Slot],
    read: impl Fn(&mut [Answer<Line>]) -> Answer<usize>,
) -> Answer<usize> {
    lend_table(table, |at| Err(Refusal { number: at as u32, place: !at }), read, Some)
}

/// The summary in a reading by the independent library.
pub fn summary<'a>(section: &Section<'a>) -> Summary<'a> {
    summary_made(section.summary)
}

/// A summary by the independent library.
pub fn summary_made(found: independent::Summary<'_>) -> Summary<'_> {
    let independent::Summary { properties, parts, length, .. } = found;
    let at = parts.label.start - independent::PROPERTIES_FIXED;
    Summary {
        security: found.security.map(|header| security(header, at)),
        flags: properties.flags,
        label_length: properties.label_length.into(),
        message_class: properties.class,
        body_type: properties.body_type,
        message_size: properties.message_size.into(),
        allocation_body_size: properties.allocation.into(),
        privacy_level: properties.privacy,
        hash_algorithm: properties.hash,
        encryption_algorithm: properties.encryption,
        extension_size: properties.extension_size.into(),
        authentication_fails: found.authentication_fails,
        decryption_fails: found.decryption_fails,
        retired: found.retired,
        parts,
        length,
        label: properties.label,
    }
}

/// A SecurityHeader of this length.
fn security(header: independent::Security<'_>, length: usize) -> Security<'_> {
    Security {
        flags: header.flags.bits(),
        sizes: [
            header.identity_size.into(),
            header.key_size.into(),
            header.signature_size.into(),
            header.certificate_size.into(),
            header.provider_size.into(),
        ],
        sid: header.sid,
        length,
        provider_type: header.provider_type,
        provider_name: header.provider_name,
    }
}

/// A request's section of this length, and whether a SecurityHeader stands first by the independent library.
pub fn sent(request: &Request<'_>, length: Answer<usize>) -> Answer<Sent> {
    let length = length?;
    request::sent(request).map(|sent| Sent { length, ..sent })
}

/// The properties made by the independent library.
pub fn properties_made(found: independent::properties::Properties<'_>) -> Properties<'_> {
    let carried = found.carried;
    Properties {
        handling: found.handling,
        sender: found.sender,
        provider_type: found.provider.map(|provider| provider.kind),
        class: carried.class,
        acknowledge: carried.acknowledge,
        application_tag: carried.application_tag,
        privacy_level: carried.privacy_level,
        hash_algorithm: carried.hash_algorithm,
        encryption_algorithm: carried.encryption_algorithm,
        body_type: carried.body_type,
        body_sizes: [carried.body.len() as u64, carried.allocation],
        correlation_id: carried.correlation_id,
        title: carried.title.iter().collect(),
        title_length: carried.title.count(),
        signature: carried.signature,
    }
}
