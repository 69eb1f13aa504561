//! Send requests defaulted and written by both sides.

use independent::generate::{request, Random};
use independent::neighbours::{self, List};

use crate::lend::{lend, Written};
use crate::report::{agree, known, values_in_hex, Check, Difference, Tally, OFTEN};
use crate::sections::SHORT;
use crate::side::{Answer, Handling, Privacy, Properties, Request, SectionValues, Sender, Side, Sides};
use crate::writing::read_values;

/// "The packet's privacy is 0, 1 or 3 for a request's 0, 1 or 2."
pub(crate) const PACKET_LEVELS: [u32; 3] = [0, 1, 3];

/// What the requests that are sent are to meet.
type Met = (&'static str, fn(&Request<'_>) -> bool);
const MET: [Met; 11] = [
    ("time to queue 0", |request| request.time_to_queue == 0),
    ("time to queue 1", |request| request.time_to_queue == 1),
    ("time to queue 0xFFFFFFFF", |request| request.time_to_queue == 0xFFFFFFFF),
    ("time to live 0", |request| request.time_to_live == 0),
    ("time to live 0xFFFFFFFF", |request| request.time_to_live == 0xFFFFFFFF),
    ("both times 0", |request| (request.time_to_queue, request.time_to_live) == (0, 0)),
    ("a time to live above time to queue", |request| request.time_to_live > request.time_to_queue),
    ("sender read back", has_security),
    ("sender not read back", |request| !has_security(request)),
    ("provider type read back", is_signed_by_another),
    ("provider type not read back", |request| !is_signed_by_another(request)),
];

/// Compares generated requests.
pub fn run(sides: Sides<'_>, cases: u64, r: &mut Random) -> Tally {
    let mut tally = Tally::with_neighbours("requests", List::Sending);
    MET.iter().for_each(|(what, _)| tally.is_to_meet(what, OFTEN));
    for _ in 0..cases {
        let owned = request(r);
        let (request, room) = (owned.as_request(), owned.room);
        let check = compare(sides, &request, room);
        let (sent, _) = send(sides.one, &request, room);
        tally.add(&sent.answer, check, || values_in_hex(&owned));
        tally.meet_neighbours(neighbours::sending(&request, room));
        MET.iter().for_each(|(what, met)| tally.meet_if(sent.answer.is_ok() && met(&request), what));
    }
    tally
}

/// "A SecurityHeader is written when identity, key, signature or certificate is not empty."
fn has_security(request: &Request<'_>) -> bool {
    let parts = [request.sender_id, request.encryption_key, request.signature, request.sender_cert];
    parts.iter().any(|part| !part.is_empty())
}

/// "Provider info is written only for a signature by another provider."
fn is_signed_by_another(request: &Request<'_>) -> bool {
    !request.signature.is_empty() && !request.default_provider
}

/// What a side sends, and whether it says that a SecurityHeader stands first in it.
fn send(side: &dyn Side, request: &Request<'_>, room: usize) -> (Written, bool) {
    let mut security_first = false;
    let written = lend(room, |out| {
        let sent = side.send(request, out)?;
        security_first = sent.security_first;
        Ok(sent.length)
    });
    (written, security_first)
}

/// Defaults and sends the request with both sides; what the one sent has to read back as the defaulted properties, and
/// not as retired (C-21).
pub fn compare(sides: Sides<'_>, request: &Request<'_>, room: usize) -> Check {
    let defaulted = sides.both("the defaulted properties", |side| side.defaulted(request))?;
    let (sent, _) = sides.both("the section sent", |side| send(side, request, room))?;
    sent.rest_stays()?;
    compare_times(sides, request, &defaulted, &sent)?;
    let properties = match defaulted {
        Ok(properties) => properties,
        Err(refusal) => return agree("sending is refused as defaulting is", &sent.answer, &Err(refusal)),
    };
    let carried = Carried::new(&properties, request)?;
    let length = carried.length();
    let wanted = if room < length { Err(SHORT) } else { Ok(length) };
    agree("the length of the section sent", &sent.answer, &wanted)?;
    let (exact, security_first) =
        sides.both("the section sent in its own length", |side| send(side, request, length))?;
    agree("its own length is room enough", &exact.answer, &Ok(length))?;
    agree("whether a SecurityHeader stands first", &security_first, &carried.security_first)?;
    let (short, _) = sides.both("the section sent a byte short", |side| send(side, request, length - 1))?;
    short.is("the section sent a byte short", &Err(SHORT))?;
    compare_read_back(sides, &exact.out, &carried, properties, request)
}

/// What is sent, read by both sides: the values that the section carries, and the properties (C-18).
fn compare_read_back(
    sides: Sides<'_>,
    section: &[u8],
    carried: &Carried,
    properties: Properties<'_>,
    request: &Request<'_>,
) -> Check {
    let values = carried.values(&properties, request);
    let reading = sides.both("what is sent", |side| side.read(section, carried.security_first))?;
    agree("what is sent reads back", &reading.map(|reading| read_values(&reading)), &Ok(values))?;
    agree("what is sent is retired", &reading.map(|reading| reading.summary.retired), &Ok(false))?;
    let what = "the properties of what is sent";
    let found = sides.both(what, |side| side.properties(section, carried.security_first))?;
    agree(what, &found, &Ok(carried.properties(properties)))
}

/// C-18: the times are passed on; where they are others, the properties are others by them alone, and what is sent or
/// refused is the same.
fn compare_times(
    sides: Sides<'_>,
    request: &Request<'_>,
    defaulted: &Answer<Properties<'_>>,
    sent: &Written,
) -> Check {
    let (time_to_queue, time_to_live) = (!request.time_to_queue, !request.time_to_live);
    let other = Request { time_to_queue, time_to_live, ..*request };
    let passed_on = |request| defaulted.clone().map(|properties| with_times(properties, request));
    agree("the times passed on", defaulted, &passed_on(request))?;
    let properties = sides.both("the properties with other times", |side| side.defaulted(&other))?;
    agree("the properties with other times", &properties, &passed_on(&other))?;
    let (again, _) = sides.both("the section with other times", |side| send(side, &other, sent.out.len()))?;
    agree("the section with other times", &again, sent)
}

/// The properties with the times of `request`: "a time to queue of 0 becomes 0xFFFFFFFF; any other, and time to live,
/// is passed on as given".
fn with_times<'a>(properties: Properties<'a>, request: &Request<'_>) -> Properties<'a> {
    let time_to_queue = if request.time_to_queue == 0 { 0xFFFFFFFF } else { request.time_to_queue };
    let timed = |handling| Handling { time_to_queue, time_to_live: request.time_to_live, ..handling };
    Properties { handling: properties.handling.map(timed), ..properties }
}

/// The texts of the section that a request is written as, and what stands in it.
struct Carried {
    security_first: bool,
    sender: Sender,
    privacy_level: u32,
    provider_info: Vec<u8>,
    label: Vec<u8>,
    parts: [usize; 6],
}

impl Carried {
    /// All properties of a request are known.
    fn new(properties: &Properties<'_>, request: &Request<'_>) -> Result<Self, Difference> {
        known("what no section carries", properties.handling)?;
        let sender = known("the sender", properties.sender)?;
        let kind = known("the provider's type", properties.provider_type)?;
        let signature = properties.signature;
        let [extension, body] = [request.extension, body_of(request)].map(<[u8]>::len);
        let [identity, key, signature, certificate] =
            [request.sender_id, request.encryption_key, signature, request.sender_cert].map(<[u8]>::len);
        let info = || [&kind.to_le_bytes(), &with_null(request.provider_name)[..]].concat();
        Ok(Self {
            security_first: identity + key + signature + certificate != 0,
            sender,
            privacy_level: known("a request's privacy", packet_level(properties.privacy_level))?,
            provider_info: if is_signed_by_another(request) { info() } else { Vec::new() },
            label: if properties.title.is_empty() { Vec::new() } else { with_null(&properties.title) },
            parts: [identity, key, signature, certificate, extension, body],
        })
    }

    /// The section's length.
    fn length(&self) -> usize {
        let [identity, key, signature, certificate, extension, body] = self.parts;
        let security = [identity, key, signature, certificate, self.provider_info.len()];
        let security = 16 + security.iter().map(|part| part.next_multiple_of(4)).sum::<usize>();
        let properties = (56 + self.label.len() + extension + body).next_multiple_of(4);
        properties + if self.security_first { security } else { 0 }
    }

    /// The values that reading the section has to give.
    fn values<'a>(&'a self, properties: &Properties<'a>, request: &Request<'a>) -> SectionValues<'a> {
        SectionValues {
            security_first: self.security_first,
            security_flags: if self.security_first { security_flags(self.sender) } else { 0 },
            sender_id: request.sender_id,
            encryption_key: request.encryption_key,
            signature: properties.signature,
            sender_cert: request.sender_cert,
            provider_info: &self.provider_info,
            flags: properties.acknowledge as u8,
            message_class: properties.class as u16,
            correlation_id: properties.correlation_id,
            body_type: properties.body_type,
            application_tag: properties.application_tag,
            allocation_body_size: properties.body_sizes[1],
            privacy_level: self.privacy_level,
            hash_algorithm: properties.hash_algorithm,
            encryption_algorithm: properties.encryption_algorithm,
            label: &self.label,
            extension: request.extension,
            body: body_of(request),
        }
    }

    /// The properties that the section has to give: "sender kind, default provider and encryption only in a
    /// SecurityHeader; provider type and name only in provider info". (The name is compared with the values.)
    fn properties<'a>(&self, properties: Properties<'a>) -> Properties<'a> {
        Properties {
            handling: None,
            sender: properties.sender.filter(|_| self.security_first),
            provider_type: properties.provider_type.filter(|_| !self.provider_info.is_empty()),
            ..properties
        }
    }
}

fn packet_level(privacy: Privacy) -> Option<u32> {
    match privacy {
        Privacy::Request(level) => PACKET_LEVELS.get(level as usize).copied(),
        Privacy::Packet(_) => None,
    }
}

fn body_of<'a>(request: &Request<'a>) -> &'a [u8] {
    request.body.map_or(&[], |(body, _)| body)
}

/// ST, and EB, DE and DP.
fn security_flags(sender: Sender) -> u16 {
    let bits = [(sender.encryption, 0x20), (sender.default_provider, 0x40), (true, 0x80)];
    bits.iter().fold(sender.kind as u16, |flags, &(set, bit)| if set { flags | bit } else { flags })
}

/// The bytes of a text with a null added.
fn with_null(text: &[u16]) -> Vec<u8> {
    text.iter().copied().chain([0]).flat_map(u16::to_le_bytes).collect()
}
