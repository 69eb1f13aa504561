//! The two libraries behind one interface, with what they answer in the same types.

use std::fmt::Debug;
use std::io;

pub use independent::field::FieldAt;
pub use independent::generate::Call;
pub use independent::listing::Line;
pub use independent::properties::{Handling, Privacy, Sender};
pub use independent::queue::Image;
pub use independent::request::{Request, Sent};
pub use independent::value::Value as BodyValue;
pub use independent::{Part, Parts, Refusal, Section, SectionValues};

use crate::report::{agree, Difference};

/// An answer or a refusal.
pub type Answer<T> = Result<T, Refusal>;

/// What is judged of a SecurityHeader.
#[derive(Debug, Clone, Copy, PartialEq, Eq)]
pub struct Security<'a> {
    /// Flags, bits 0 to 11.
    pub flags: u16,
    /// The five sizes, in their order.
    pub sizes: [u64; 5],
    /// The first two identity bytes for ST 1, else 0.
    pub sid: [u8; 2],
    /// The header's length.
    pub length: usize,
    /// The provider's type, where there is provider info.
    pub provider_type: Option<u32>,
    /// The provider's name, its null included.
    pub provider_name: &'a [u8],
}

/// What is judged of a section.
#[derive(Debug, Clone, Copy, PartialEq, Eq)]
pub struct Summary<'a> {
    /// The SecurityHeader, where one stands first.
    pub security: Option<Security<'a>>,
    /// Flags, bits 0 to 3.
    pub flags: u8,
    /// LabelLength.
    pub label_length: u32,
    /// MessageClass.
    pub message_class: u16,
    /// BodyType.
    pub body_type: u32,
    /// MessageSize.
    pub message_size: u64,
    /// AllocationBodySize.
    pub allocation_body_size: u64,
    /// PrivacyLevel.
    pub privacy_level: u32,
    /// HashAlgorithm.
    pub hash_algorithm: u32,
    /// EncryptionAlgorithm.
    pub encryption_algorithm: u32,
    /// ExtensionSize.
    pub extension_size: u64,
    /// The verdict "authentication fails".
    pub authentication_fails: bool,
    /// The verdict "decryption fails".
    pub decryption_fails: bool,
    /// The verdict "retired".
    pub retired: bool,
    /// Start and length of each part.
    pub parts: Parts,
    /// The section's length.
    pub length: usize,
    /// The label, its null included.
    pub label: &'a [u8],
}

impl Summary<'_> {
    /// The summary without the content of the provider name.
    pub fn without_provider_name(self) -> Self {
        let security = self.security.map(|security| Security { provider_name: &[], ..security });
        Self { security, ..self }
    }
}

/// The full reading.
#[derive(Debug, Clone, Copy, PartialEq, Eq)]
pub struct Reading<'a> {
    /// What is judged.
    pub summary: Summary<'a>,
    /// CorrelationID.
    pub correlation_id: &'a [u8; 20],
    /// ApplicationTag.
    pub application_tag: u32,
    /// The bytes of the parts: identity, key, signature, certificate, provider info, label, extension, body.
    pub parts: [&'a [u8]; 8],
}

/// The properties of a request or of a section; what is not known of them is none.
#[derive(Debug, Clone, PartialEq, Eq)]
pub struct Properties<'a> {
    /// What no section carries.
    pub handling: Option<Handling>,
    /// What only a SecurityHeader carries.
    pub sender: Option<Sender>,
    /// The provider's type, which only provider info carries.
    pub provider_type: Option<u32>,
    /// The message class.
    pub class: u32,
    /// Acknowledge.
    pub acknowledge: u32,
    /// The application's tag.
    pub application_tag: u32,
    /// The privacy.
    pub privacy_level: Privacy,
    /// The hash algorithm.
    pub hash_algorithm: u32,
    /// The encryption algorithm.
    pub encryption_algorithm: u32,
    /// The body's type.
    pub body_type: u32,
    /// The body's bytes and its allocation.
    pub body_sizes: [u64; 2],
    /// The correlation identifier.
    pub correlation_id: [u8; 20],
    /// The title as cut, without its null.
    pub title: Vec<u16>,
    /// How many units it is said to have.
    pub title_length: usize,
    /// The signature as cut.
    pub signature: &'a [u8],
}

/// A record of a day file.
#[derive(Debug, Clone, Copy, PartialEq, Eq)]
pub struct Record<'a> {
    /// Its bytes, head and section.
    pub size: usize,
    /// Whether a SecurityHeader stands first in its section.
    pub security_first: bool,
    /// The bytes behind its head.
    pub section: &'a [u8],
    /// What its line says.
    pub answer: Answer<Line>,
}

/// What stands at the first byte of the rest of a day file.
#[derive(Debug, Clone, Copy, PartialEq, Eq)]
pub enum Next<'a> {
    /// Nothing: the file ends.
    End,
    /// A record that is wrong or cut.
    Stop,
    /// A record.
    Found(Record<'a>),
}

/// The records of a day file.
#[derive(Debug, PartialEq, Eq)]
pub struct Records<'a> {
    /// Those before the end, or before one that is wrong or cut.
    pub whole: Vec<Record<'a>>,
    /// The number of the one that is wrong or cut, and where it begins.
    pub stop: Option<(usize, usize)>,
}

/// What came of a slot of a lent table.
#[derive(Debug, Clone, Copy, PartialEq, Eq)]
pub enum Slot {
    /// It stays as it was.
    Kept,
    /// It was filled.
    Filled(Answer<Line>),
    /// Neither: what it holds depends on what it held before, or is no answer.
    Spoilt,
}

/// What is said of a number that a body is.
#[derive(Debug, Clone, PartialEq, Eq)]
pub struct Told {
    /// The BodyType of its kind.
    pub body_type: u32,
    /// Its bits; above those of 4 bytes zeros.
    pub bits: u64,
    /// How many bytes its body has.
    pub size: usize,
    /// The body.
    pub body: Vec<u8>,
}

/// A section that is being read in portions.
pub trait Portions {
    /// The next bytes.
    fn portion(&mut self, bytes: &[u8]) -> Answer<()>;
    /// The finish.
    fn finish(&mut self) -> Answer<Summary<'_>>;
    /// What a call is answered, but for the summary.
    fn call(&mut self, call: Call<&[u8]>) -> Answer<()> {
        match call {
            Call::Portion(bytes) => self.portion(bytes),
            Call::Finish => self.finish().map(|_| ()),
        }
    }
    /// Whether a call leaves the state as it is; it is made on a copy.
    fn stays(&self, call: Call<&[u8]>) -> bool;
}

/// A library: everything that it can be asked.
pub trait Side {
    /// The full reading of a section.
    fn read<'a>(&self, input: &'a [u8], security_first: bool) -> Answer<Reading<'a>>;
    /// The summary of a section.
    fn summarize<'a>(&self, input: &'a [u8], security_first: bool) -> Answer<Summary<'a>>;
    /// The summary of a section without the content of the provider name.
    fn summarize_nameless<'a>(&self, input: &'a [u8], security_first: bool) -> Answer<Summary<'a>>;
    /// The start of a section that comes in portions.
    fn portions(&self, security_first: bool) -> Box<dyn Portions>;
    /// Whether both are accepted and their summaries are the same.
    fn same_summary(&self, a: &[u8], b: &[u8], security_first: bool) -> bool;
    /// The label for display.
    fn label_shown<'a>(&self, input: &'a [u8], security_first: bool, stand_in: &'a [u8]) -> &'a [u8];
    /// The field or part at any place of `input`.
    fn field_at(&self, input: &[u8], security_first: bool, place: usize) -> FieldAt;
    /// The field, part or header that the place of `input`'s refusal means.
    fn field_of(&self, input: &[u8], security_first: bool, refusal: Refusal) -> FieldAt;
    /// The support copy.
    fn support_copy(&self, input: &[u8], security_first: bool, out: &mut [u8]) -> Answer<usize>;
    /// Whether `copy` is the support copy of an accepted section.
    fn is_support_copy(&self, input: &[u8], security_first: bool, copy: &[u8]) -> bool;
    /// The section of these values.
    fn write_section(&self, values: &SectionValues<'_>, out: &mut [u8]) -> Answer<usize>;
    /// The section written from what is read of `input`.
    fn write_again(&self, input: &[u8], security_first: bool, out: &mut [u8]) -> Answer<usize>;
    /// The number that a section's body is.
    fn read_value(&self, input: &[u8], security_first: bool) -> Answer<BodyValue>;
    /// The number that the body of a section is which was read before.
    fn value_of_section(&self, input: &[u8], security_first: bool) -> Answer<BodyValue>;
    /// The number that a body of this BodyType is.
    fn value_of(&self, body_type: u32, body: &[u8]) -> Answer<BodyValue>;
    /// The body that a number is.
    fn write_value(&self, value: BodyValue, out: &mut [u8]) -> Answer<usize>;
    /// What is said of a number.
    fn told(&self, value: BodyValue) -> Told;
    /// Whether two numbers are the same.
    fn same_value(&self, one: BodyValue, other: BodyValue) -> bool;
    /// A queue format image read.
    fn read_image<'a>(&self, input: &'a [u8]) -> Answer<Image<'a>>;
    /// A queue format image written: type, suffix and flags, the value's fixed bytes and its string.
    fn write_image(&self, format: [u8; 2], fixed: &[u8], text: &[u8], out: &mut [u8]) -> Answer<usize>;
    /// The defaulted properties of a request.
    fn defaulted<'a>(&self, request: &Request<'a>) -> Answer<Properties<'a>>;
    /// The properties of a section.
    fn properties<'a>(&self, input: &'a [u8], security_first: bool) -> Answer<Properties<'a>>;
    /// The section of a request.
    fn send(&self, request: &Request<'_>, out: &mut [u8]) -> Answer<Sent>;
    /// The record at the first byte of the rest of a day file.
    fn next_record<'a>(&self, rest: &'a [u8]) -> Next<'a>;
    /// The records of a day file.
    fn records<'a>(&self, file: &'a [u8]) -> Records<'a> {
        let (mut whole, mut place) = (Vec::new(), 0);
        loop {
            match self.next_record(&file[place..]) {
                Next::End => return Records { whole, stop: None },
                Next::Stop => return Records { stop: Some((whole.len(), place)), whole },
                Next::Found(record) => {
                    place += record.size;
                    whole.push(record);
                }
            }
        }
    }
    /// A day file read in a single call into as many slots as `table` has, in which it is said what came of each.
    fn read_day(&self, file: &[u8], table: &mut [Slot]) -> Answer<usize>;
    /// The listing of a day file.
    fn list(&self, file: &[u8], source: Source) -> io::Result<Vec<u8>>;
}

/// Where a listing program reads a day file from.
#[derive(Debug, Clone, Copy, PartialEq, Eq)]
pub enum Source {
    /// A pipe: a read may give less than was asked for.
    Pipe,
    /// A file: a read gives all that was asked for, up to the end.
    File,
}

/// The two libraries that are held against each other.
#[derive(Clone, Copy)]
pub struct Sides<'s> {
    /// The one.
    pub one: &'s dyn Side,
    /// The other.
    pub other: &'s dyn Side,
}

impl Sides<'_> {
    /// What both answer to `ask`, or how they differ.
    pub fn both<T: PartialEq + Debug>(
        &self,
        what: &str,
        ask: impl Fn(&dyn Side) -> T,
    ) -> Result<T, Difference> {
        let answer = ask(self.one);
        agree(what, &answer, &ask(self.other))?;
        Ok(answer)
    }
}

/// The bytes of a part of `input`.
pub fn part_of(part: Part, input: &[u8]) -> &[u8] {
    &input[part.start..part.start + part.length]
}
