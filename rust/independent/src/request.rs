//! Send requests: absent values filled in, the steps 1 to 6, and the section that is written.

use crate::lists::{class_is_listed, hash_is_retired, privacy_is_retired};
use crate::order::{first_failure, Judged, Step};
use crate::properties::{Carried, Handling, Privacy, Properties, Provider, Sender, Units};
use crate::section::{SecurityFlags, LABEL_MOST, LIMIT};
use crate::steps::{identity_is_right, Headers, PropertiesHeader, SecurityHeader, ENDLESS, LABEL_BYTES_MOST};
use crate::{number, write_section, Refusal, SectionValues};

/// The most units of a title that go into a label, before its null.
const TITLE_MOST: usize = LABEL_MOST as usize - 1;
/// The most units of a provider name, before its null.
const NAME_MOST: usize = 1_024;
/// The most bytes of provider info: the type, the name and its null.
const PROVIDER_MOST: usize = 4 + 2 * (NAME_MOST + 1);

/// A send request as it is handed in. An absent number is `None`, an absent part is empty.
#[derive(Debug, Clone, Copy, PartialEq, Eq, Default)]
pub struct Request<'a> {
    /// Time to queue, always given; 0 becomes 0xFFFFFFFF.
    pub time_to_queue: u32,
    /// Time to live, always given.
    pub time_to_live: u32,
    /// Priority, 0 to 7; 3 where absent.
    pub priority: Option<u32>,
    /// Trace, 0 or 1.
    pub trace: Option<u32>,
    /// Delivery, 0 or 1; a transaction makes it 1.
    pub delivery: Option<u32>,
    /// Auditing, 0 to 3.
    pub auditing: Option<u32>,
    /// The message class.
    pub class: Option<u32>,
    /// Acknowledge, 0 to 15: the properties Flags.
    pub acknowledge: Option<u32>,
    /// The application's tag.
    pub application_tag: Option<u32>,
    /// Privacy, 0, 1 or 2.
    pub privacy_level: Option<u32>,
    /// The hash algorithm.
    pub hash_algorithm: Option<u32>,
    /// The encryption algorithm.
    pub encryption_algorithm: Option<u32>,
    /// The body's type.
    pub body_type: Option<u32>,
    /// The provider's type.
    pub provider_type: Option<u32>,
    /// The kind of sender identity, 0 to 2.
    pub sender_kind: Option<u32>,
    /// The split number (pulAuthProvNameLenProp in 002).
    pub split_number: Option<u32>,
    /// The name length that goes with the split number (ulProvNameLen in 002).
    pub provider_name_length: u32,
    /// The correlation identifier.
    pub correlation_id: Option<[u8; 20]>,
    /// The title's units.
    pub title: &'a [u16],
    /// The sender's identity.
    pub sender_id: &'a [u8],
    /// The encryption key.
    pub encryption_key: &'a [u8],
    /// The signature bytes.
    pub signature: &'a [u8],
    /// The sender's certificate.
    pub sender_cert: &'a [u8],
    /// The provider name's units, without a null.
    pub provider_name: &'a [u16],
    /// The extension data.
    pub extension: &'a [u8],
    /// The body and its allocation.
    pub body: Option<(&'a [u8], u64)>,
    /// The message belongs to a transaction.
    pub transaction: bool,
    /// The queue was opened by a direct format name.
    pub direct_queue: bool,
    /// The signature is made with the default provider.
    pub default_provider: bool,
    /// Encryption is asked for.
    pub encryption: bool,
}

/// A section that is sent.
#[derive(Debug, Clone, Copy, PartialEq, Eq)]
pub struct Sent {
    /// Its length.
    pub length: usize,
    /// Whether a SecurityHeader stands first.
    pub security_first: bool,
}

/// Steps 1 to 6 without 13. Gives the defaulted properties of a request they pass; every refusal has
/// place 0.
pub fn defaulted<'a>(request: &Request<'a>) -> Result<Properties<'a>, Refusal> {
    defaulted_by(&SENDING, request)
}

/// Writes the section of a legal request to the start of `out` and gives its length. Refuses as
/// [`defaulted`] does, then with 13; a refusal writes nothing.
pub fn send(request: &Request<'_>, out: &mut [u8]) -> Result<usize, Refusal> {
    send_by(&SENDING, request, out)
}

/// The section that [`send`] writes of a request. Refuses as [`defaulted`] does.
pub fn sent(request: &Request<'_>) -> Result<Sent, Refusal> {
    let filled_in = FilledIn::new(request, ENDLESS);
    filled_in.passes(&SENDING)?;
    let values = &filled_in.values;
    Ok(Sent { length: values.section_length(), security_first: values.security_first() })
}

/// [`defaulted`] by the steps of `order`.
#[inline(always)]
pub(crate) fn defaulted_by<'a>(
    order: &[RequestStep],
    request: &Request<'a>,
) -> Result<Properties<'a>, Refusal> {
    let filled_in = FilledIn::new(request, ENDLESS);
    filled_in.passes(order)?;
    Ok(filled_in.properties())
}

/// [`send`] by the steps of `order`.
#[inline(always)]
pub(crate) fn send_by(
    order: &[RequestStep],
    request: &Request<'_>,
    out: &mut [u8],
) -> Result<usize, Refusal> {
    let filled_in = FilledIn::new(request, out.len());
    filled_in.passes(order)?;
    let values = &filled_in.values;
    let mut label = [0; LABEL_BYTES_MOST];
    let mut provider_info = [0; PROVIDER_MOST];
    let label_length = values.put_label(&mut label);
    let provider_length = values.put_provider_info(&mut provider_info);
    let section = SectionValues {
        label: &label[..label_length],
        provider_info: &provider_info[..provider_length],
        ..values.without_texts()
    };
    write_section(&section, out)
}

/// A step of a request; it answers with the refusal's number.
pub(crate) type RequestStep = Step<fn(&FilledIn<'_, '_>) -> bool, u32>;

const fn step(name: &'static str, number: u32, fails: fn(&FilledIn<'_, '_>) -> bool) -> RequestStep {
    Step { name, answer: number, test: fails }
}

/// Steps 1 to 6; 29, of C-21, "right after 24".
pub(crate) const SENDING: [RequestStep; 14] = [
    step("20", number::RANGE, |f| f.is_out_of_range()),
    step("10", number::CLASS, |f| !u16::try_from(f.values.carried.class).is_ok_and(class_is_listed)),
    step("21", number::PRIVACY, |f| f.privacy_level() > 2),
    step("22", number::DIRECT_PRIVACY, |f| f.request.direct_queue && f.privacy_level() != 0),
    step("23", number::ALGORITHM_ABSENT, |f| {
        f.request.privacy_level.is_some() && f.request.encryption_algorithm.is_none()
    }),
    step("24", number::HASH_ABSENT, |f| f.is_signed() && f.request.hash_algorithm.is_none()),
    step("29", number::RETIRED, |f| f.is_retired()),
    step("25", number::REQUEST_IDENTITY, |f| !f.identity_fits()),
    step("26", number::REQUEST_PROVIDER, |f| f.is_signed() && !f.provider_fits()),
    step("27", number::SPLIT, |f| !f.split_fits),
    step("28", number::PART_SIZE, |f| f.headers.security.as_ref().is_some_and(SecurityHeader::part_is_long)),
    step("11", number::ALLOCATION, |f| f.headers.properties.allocation_is_wrong()),
    step("8", number::LIMIT, |f| f.headers.properties.length() > LIMIT),
    step("13", number::OUTPUT_SHORT, |f| f.headers.properties.length() > f.headers.output as u64),
];

/// The values of a request, every absent one filled in.
pub(crate) struct Values<'a> {
    handling: Handling,
    sender: Sender,
    provider: Provider<'a>,
    pub(crate) carried: Carried<'a>,
}

/// A request as its steps look at it: every absent value filled in, the title and the signature cut.
pub(crate) struct FilledIn<'r, 'a> {
    request: &'r Request<'a>,
    pub(crate) values: Values<'a>,
    /// Whether step 5 could cut the signature; where not, it is as it was given.
    split_fits: bool,
    /// The headers of the section that would be written.
    headers: Headers<'a>,
}

impl Judged for FilledIn<'_, '_> {
    type Test = fn(&FilledIn<'_, '_>) -> bool;
    type Answer = u32;

    #[inline(always)]
    fn fails(&self, test: &Self::Test) -> bool {
        test(self)
    }
}

impl<'r, 'a> FilledIn<'r, 'a> {
    /// The request, with so many bytes of output lent.
    pub(crate) fn new(request: &'r Request<'a>, output: usize) -> Self {
        let cut = cut_signature(request);
        let mut values = Values::new(request);
        values.carried.signature = cut.unwrap_or(request.signature);
        Self { request, split_fits: cut.is_some(), headers: values.headers(output), values }
    }

    /// Whether the steps of `order` pass.
    #[inline(always)]
    fn passes(&self, order: &[RequestStep]) -> Result<(), Refusal> {
        first_failure(order, self).map_or(Ok(()), |step| Err(Refusal::at_start(step.answer)))
    }

    /// The properties of a request that passed, all of them known. A transaction makes delivery 1.
    #[inline(always)]
    fn properties(&self) -> Properties<'a> {
        let handling = &self.values.handling;
        let delivery = if handling.transaction { 1 } else { handling.delivery };
        Properties {
            handling: Some(Handling { delivery, ..*handling }),
            sender: Some(self.values.sender),
            provider: Some(self.values.provider),
            carried: self.values.carried,
        }
    }

    /// "Signature bytes given."
    pub(crate) fn is_signed(&self) -> bool {
        !self.request.signature.is_empty()
    }

    /// The request's privacy, whatever its number.
    pub(crate) fn privacy_level(&self) -> u32 {
        self.request.privacy_level.unwrap_or(0)
    }

    /// 20.
    fn is_out_of_range(&self) -> bool {
        let handling = &self.values.handling;
        handling.priority > 7
            || handling.trace > 1
            || handling.delivery > 1
            || self.values.carried.acknowledge > 15
            || handling.auditing > 3
    }

    /// 29: "retired privacy, then retired hash where the request is signed".
    pub(crate) fn is_retired(&self) -> bool {
        privacy_is_retired(self.privacy_level())
            || self.is_signed() && hash_is_retired(self.values.carried.hash_algorithm)
    }

    /// 25.
    fn identity_fits(&self) -> bool {
        match self.values.sender.kind {
            kind @ 0..=2 => identity_is_right(kind as u8, self.request.sender_id),
            _ => false,
        }
    }

    /// 26, of a signed request.
    fn provider_fits(&self) -> bool {
        let name = self.request.provider_name;
        if self.request.default_provider {
            self.request.provider_type == Some(1)
        } else {
            (1..=NAME_MOST).contains(&name.len()) && !name.contains(&0)
        }
    }
}

/// "Cut at the first zero unit, then at 249."
fn cut_title(title: &[u16]) -> &[u16] {
    let title = &title[..title.len().min(TITLE_MOST)];
    let end = title.iter().position(|&unit| unit == 0).unwrap_or(title.len());
    &title[..end]
}

/// Step 5: "the signature is the last (split number minus name length) bytes"; nothing where there
/// are not so many.
fn cut_signature<'a>(request: &Request<'a>) -> Option<&'a [u8]> {
    let signature = request.signature;
    let Some(split_number) = request.split_number.filter(|_| !signature.is_empty()) else {
        return Some(signature);
    };
    let count = split_number.checked_sub(request.provider_name_length).filter(|&count| count != 0)?;
    Some(&signature[signature.len().checked_sub(count as usize)?..])
}

fn handling(request: &Request<'_>) -> Handling {
    Handling {
        priority: request.priority.unwrap_or(3),
        trace: request.trace.unwrap_or(0),
        delivery: request.delivery.unwrap_or(0),
        auditing: request.auditing.unwrap_or(0),
        transaction: request.transaction,
        direct_queue: request.direct_queue,
        split_number: request.split_number,
        provider_name_length: request.provider_name_length,
        time_to_queue: match request.time_to_queue {
            0 => 0xFFFFFFFF,
            given => given,
        },
        time_to_live: request.time_to_live,
    }
}

fn carried<'a>(request: &Request<'a>) -> Carried<'a> {
    let (body, allocation) = request.body.unwrap_or_default();
    Carried {
        class: request.class.unwrap_or(0),
        acknowledge: request.acknowledge.unwrap_or(0),
        application_tag: request.application_tag.unwrap_or(0),
        privacy_level: Privacy::Request(request.privacy_level.unwrap_or(0)),
        hash_algorithm: request.hash_algorithm.unwrap_or(0),
        encryption_algorithm: request.encryption_algorithm.unwrap_or(0),
        body_type: request.body_type.unwrap_or(0),
        allocation,
        correlation_id: request.correlation_id.unwrap_or_default(),
        title: Units::Given(cut_title(request.title)),
        sender_id: request.sender_id,
        encryption_key: request.encryption_key,
        signature: request.signature,
        sender_cert: request.sender_cert,
        extension: request.extension,
        body,
    }
}

impl<'a> Values<'a> {
    /// "An absent value gets": the request with every absent value filled in and the title cut, before
    /// any step.
    fn new(request: &Request<'a>) -> Self {
        let encryption = request.encryption && !request.encryption_key.is_empty();
        Self {
            handling: handling(request),
            sender: Sender {
                kind: request.sender_kind.unwrap_or(0),
                default_provider: request.default_provider,
                encryption,
            },
            provider: Provider {
                kind: request.provider_type.unwrap_or(0),
                name: Units::Given(request.provider_name),
            },
            carried: carried(request),
        }
    }

    /// Whether the section begins with a SecurityHeader: "when identity, key, signature or
    /// certificate is not empty".
    fn security_first(&self) -> bool {
        let Carried { sender_id, encryption_key, signature, sender_cert, .. } = self.carried;
        !(sender_id.is_empty() && encryption_key.is_empty() && signature.is_empty() && sender_cert.is_empty())
    }

    /// The length of the section that is written.
    fn section_length(&self) -> usize {
        self.headers(ENDLESS).properties.length() as usize
    }

    /// The headers of the section, without the texts, which are made for writing only.
    fn headers(&self, output: usize) -> Headers<'a> {
        let carried = &self.carried;
        let security = self.security_first().then(|| SecurityHeader {
            input: ENDLESS,
            flags: SecurityFlags::new(self.security_flags()),
            identity: carried.sender_id.len() as u64,
            key: carried.encryption_key.len() as u64,
            signature: carried.signature.len() as u64,
            certificate: carried.sender_cert.len() as u64,
            provider: self.provider_length() as u64,
            identity_bytes: carried.sender_id,
            provider_info: &[],
        });
        let properties = PropertiesHeader {
            input: ENDLESS,
            at: security.as_ref().map_or(0, SecurityHeader::length),
            label_bytes: 2 * self.label_units() as u64,
            class: carried.class as u16,
            body_type: carried.body_type,
            message_size: carried.body.len() as u64,
            allocation: carried.allocation,
            extension: carried.extension.len() as u64,
            label: &[],
        };
        Headers { security, properties, output }
    }

    /// The label's units, its null included; 0 for an empty title.
    fn label_units(&self) -> usize {
        match self.carried.title.count() {
            0 => 0,
            units => units + 1,
        }
    }

    /// The bytes of the provider info, "written only for a signature by another provider".
    fn provider_length(&self) -> usize {
        if self.carried.signature.is_empty() || self.sender.default_provider {
            0
        } else {
            4 + 2 * (self.provider.name.count() + 1)
        }
    }

    fn security_flags(&self) -> u16 {
        let mut flags = self.sender.kind as u16 | SecurityFlags::DATA_PRESENT;
        if self.sender.default_provider {
            flags |= SecurityFlags::DEFAULT_PROVIDER;
        }
        if self.sender.encryption {
            flags |= SecurityFlags::BODY_ENCRYPTED;
        }
        flags
    }

    /// The section's values but label and provider info. The numbers passed step 1, so that the
    /// casts keep their values.
    fn without_texts(&self) -> SectionValues<'a> {
        let carried = &self.carried;
        SectionValues {
            security_first: self.security_first(),
            security_flags: self.security_flags(),
            sender_id: carried.sender_id,
            encryption_key: carried.encryption_key,
            signature: carried.signature,
            sender_cert: carried.sender_cert,
            provider_info: &[],
            flags: carried.acknowledge as u8,
            message_class: carried.class as u16,
            correlation_id: carried.correlation_id,
            body_type: carried.body_type,
            application_tag: carried.application_tag,
            allocation_body_size: carried.allocation,
            privacy_level: carried.privacy_level.packet_level(),
            hash_algorithm: carried.hash_algorithm,
            encryption_algorithm: carried.encryption_algorithm,
            label: &[],
            extension: carried.extension,
            body: carried.body,
        }
    }

    /// Writes the title, a null behind it, to `label`, which is all zero; gives the number of bytes.
    fn put_label(&self, label: &mut [u8; LABEL_BYTES_MOST]) -> usize {
        self.carried.title.put(label);
        2 * self.label_units()
    }

    /// Writes type and name, a null behind it, to `info`, which is all zero; gives the number of bytes.
    fn put_provider_info(&self, info: &mut [u8; PROVIDER_MOST]) -> usize {
        let length = self.provider_length();
        if length != 0 {
            info[..4].copy_from_slice(&self.provider.kind.to_le_bytes());
            self.provider.name.put(&mut info[4..]);
        }
        length
    }
}
