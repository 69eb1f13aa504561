//! Each kind of comparison holds for the independent library, and finds the wrong versions that are planted in it.

use std::io;

use compare::held::Held;
use compare::library::Library;
use compare::report::Tally;
use compare::second::{lend_answers, properties_made, reading, sent, summary, summary_made, Independent};
use compare::side::{Answer, BodyValue, FieldAt, Image, Line, Next, Portions, Properties, Reading, Record};
use compare::side::{
    Records, Refusal, Request, SectionValues, Sent, Side, Sides, Slot, Source, Summary, Told,
};
use compare::{
    alike, classes, days, examples, fields, listing, pairs, places, portions, properties, queues, requests,
    retired, section_properties, sections, sweeps, values, writing,
};
use independent::generate::Random;
use independent::neighbours::{List, Neighbours};
use independent::planted::{self, Dependence, WrongDay, WrongField, WrongKnown, WrongPlace};
use independent::planted::{WrongNumber, WrongPortions, WrongRetired, WrongStep, WrongTime, WrongValue};
use independent::planted::{WrongVerdict, WrongWriting, WrongYes};

/// The generated cases of a kind.
const CASES: u64 = 8_000;
/// The generated day files and tables.
const DAYS: u64 = 1_000;
/// The generated sections in portions.
const PORTIONS: u64 = 3_000;

/// The one function that is wrong.
#[derive(Debug, Clone, Copy, PartialEq)]
enum Fault {
    /// The extension is padded before the body.
    Read,
    /// A class that is not listed is let through where it is read, written or sent.
    ClassRead(u16),
    ClassWritten(u16),
    ClassSent(u16),
    /// The verdict on decryption is another.
    Verdict(WrongVerdict),
    /// The verdict on what is retired is another.
    Retired(WrongRetired),
    /// What is retired is not written.
    RetiredWritten,
    /// A request's 29 is another.
    RetiredSent(WrongStep),
    /// A refusal's place is another where a section is read, copied or written, in a record or in the listing.
    PlaceRead(WrongPlace),
    PlaceCopied(WrongPlace),
    PlaceWritten(WrongPlace),
    PlaceInRecord(WrongPlace),
    PlaceListed(WrongPlace),
    /// A place is named as another field, or where a refusal gave it.
    FieldAtPlace(WrongField),
    FieldOfRefusal(WrongField),
    /// A refusal depends on private bits where a section is read, or where it is copied.
    Depends(Dependence),
    DependsCopied(Dependence),
    /// A proposed copy is judged otherwise.
    Proposed(WrongYes),
    /// A request's times are others.
    Timed(WrongTime),
    /// A section's properties are others.
    Known(WrongKnown),
    /// Private bits count.
    SameSummary,
    /// A label of one unit is taken for none.
    LabelShown,
    /// X bits are copied.
    SupportCopy,
    /// The label's bytes are counted for its units.
    WriteSection,
    /// The reserved bytes are judged.
    ReadImage,
    /// The reserved bytes are left.
    WriteImage,
    /// A transaction leaves delivery as it is.
    Defaulted,
    /// Privacy 2 is copied.
    Send,
    /// No section is said to begin with a SecurityHeader.
    SentFirst,
    /// The label's bytes are counted for its units.
    List,
    /// The same in a record.
    RecordLine,
    /// A record's section is cut to what was read of it.
    RecordSection,
    /// A head's byte for security is not looked at.
    RecordFirst,
    /// A record that is wrong or cut is taken for the file's end.
    RecordStop,
    /// The record that is wrong or cut is counted with those before it.
    StopNumber,
    /// A day file is read otherwise into a table.
    Day(WrongDay),
    /// A section is read otherwise in portions.
    Portions(WrongPortions),
    /// The summary that is said to be without the name has it.
    Named,
    /// A body is taken for another number where it is read with its section, where that was read before, or where
    /// it comes without one.
    ValueRead(WrongValue),
    ValueOfSection(WrongValue),
    ValueOfBody(WrongValue),
    /// A number is written otherwise.
    ValueWritten(WrongWriting),
    /// The bits of a signed number are extended by its sign.
    ToldBits,
    /// Every 32-bit integer is said to be of type 3.
    ToldType,
    /// Every number is said to have 8 bytes.
    ToldSize,
    /// The body that is said to be a number's has its last byte first.
    ToldBody,
    /// Values are the same as floats are: no NaN is itself, and -0.0 is 0.0.
    SameFloats,
    /// Values are the same where their bits are, of whatever kind.
    SameBits,
    /// Every refusal changes a lent byte.
    Refusal,
    /// Two neighbouring steps of a list are exchanged.
    Exchanged(List, Neighbours),
    /// A test of a record's head is left out.
    LeftOut(&'static str),
}

/// Every exchange of neighbouring steps in a list that can show.
fn exchanges(list: List) -> Vec<Fault> {
    let shown = list.neighbours().into_iter().filter(|pair| !pair.alike);
    shown.map(|pair| Fault::Exchanged(list, pair)).collect()
}

/// The independent library with one wrong function.
struct Planted(Fault);

impl Planted {
    /// What was written, with a byte changed by a refusal where that is the fault.
    fn written(&self, answer: Answer<usize>, out: &mut [u8]) -> Answer<usize> {
        if let (Fault::Refusal, Err(_), [first, ..]) = (self.0, answer, out) {
            *first ^= 1;
        }
        answer
    }
}

impl Side for Planted {
    fn read<'a>(&self, input: &'a [u8], security_first: bool) -> Answer<Reading<'a>> {
        match self.0 {
            Fault::Read => planted::read(input, security_first).map(|section| reading(&section, input)),
            Fault::ClassRead(extra) => {
                planted::read_class(extra, input, security_first).map(|section| reading(&section, input))
            }
            Fault::Verdict(wrong) => {
                planted::read_verdict(wrong, input, security_first).map(|section| reading(&section, input))
            }
            Fault::Retired(wrong) => {
                planted::read_retired(wrong, input, security_first).map(|section| reading(&section, input))
            }
            Fault::PlaceRead(wrong) => {
                planted::read_placed(wrong, input, security_first).map(|section| reading(&section, input))
            }
            Fault::Depends(wrong) => {
                planted::read_dependent(wrong, input, security_first).map(|section| reading(&section, input))
            }
            Fault::Exchanged(List::Reading, pair) => planted::read_exchanged(pair.at, input, security_first)
                .map(|section| reading(&section, input)),
            _ => Independent.read(input, security_first),
        }
    }
    fn summarize<'a>(&self, input: &'a [u8], security_first: bool) -> Answer<Summary<'a>> {
        match self.0 {
            Fault::Read => planted::read(input, security_first).map(|section| summary(&section)),
            Fault::Exchanged(List::Reading, _)
            | Fault::ClassRead(_)
            | Fault::Depends(_)
            | Fault::PlaceRead(_)
            | Fault::Verdict(_)
            | Fault::Retired(_) => self.read(input, security_first).map(|reading| reading.summary),
            _ => Independent.summarize(input, security_first),
        }
    }
    fn summarize_nameless<'a>(&self, input: &'a [u8], security_first: bool) -> Answer<Summary<'a>> {
        let found = self.summarize(input, security_first)?;
        Ok(if self.0 == Fault::Named { found } else { found.without_provider_name() })
    }
    fn portions(&self, security_first: bool) -> Box<dyn Portions> {
        match self.0 {
            Fault::Portions(wrong) => in_portions(wrong, security_first),
            Fault::Exchanged(List::Reading, pair) => {
                in_portions(WrongPortions::Exchanged(pair.at), security_first)
            }
            _ => Independent.portions(security_first),
        }
    }
    fn same_summary(&self, a: &[u8], b: &[u8], security_first: bool) -> bool {
        Independent.same_summary(a, b, security_first) && (self.0 != Fault::SameSummary || a == b)
    }
    fn label_shown<'a>(&self, input: &'a [u8], security_first: bool, stand_in: &'a [u8]) -> &'a [u8] {
        match Independent.label_shown(input, security_first, stand_in) {
            [0, 0] if self.0 == Fault::LabelShown => stand_in,
            shown => shown,
        }
    }
    fn field_at(&self, input: &[u8], security_first: bool, place: usize) -> FieldAt {
        match self.0 {
            Fault::FieldAtPlace(wrong) => planted::field_of(wrong, input, security_first, 0, place),
            _ => Independent.field_at(input, security_first, place),
        }
    }
    fn field_of(&self, input: &[u8], security_first: bool, refusal: Refusal) -> FieldAt {
        match self.0 {
            Fault::FieldOfRefusal(wrong) => {
                planted::field_of(wrong, input, security_first, refusal.number, refusal.place)
            }
            _ => Independent.field_of(input, security_first, refusal),
        }
    }
    fn support_copy(&self, input: &[u8], security_first: bool, out: &mut [u8]) -> Answer<usize> {
        let answer = match self.0 {
            Fault::SupportCopy => planted::support_copy(input, security_first, out),
            Fault::PlaceCopied(wrong) | Fault::PlaceRead(wrong) => {
                planted::support_copy_placed(wrong, input, security_first, out)
            }
            Fault::Depends(wrong) | Fault::DependsCopied(wrong) => {
                planted::support_copy_dependent(wrong, input, security_first, out)
            }
            Fault::Exchanged(List::Reading, pair) => {
                planted::support_copy_exchanged(pair.at, input, security_first, out)
            }
            _ => Independent.support_copy(input, security_first, out),
        };
        self.written(answer, out)
    }
    fn is_support_copy(&self, input: &[u8], security_first: bool, copy: &[u8]) -> bool {
        match self.0 {
            Fault::Proposed(wrong) => planted::is_support_copy(wrong, input, security_first, copy),
            _ => Independent.is_support_copy(input, security_first, copy),
        }
    }
    fn write_section(&self, values: &SectionValues<'_>, out: &mut [u8]) -> Answer<usize> {
        let answer = match self.0 {
            Fault::WriteSection => planted::write_section(values, out),
            Fault::ClassWritten(extra) => planted::write_class(extra, values, out),
            Fault::RetiredWritten => planted::write_retired(values, out),
            Fault::PlaceWritten(wrong) => planted::write_placed(wrong, values, out),
            Fault::Exchanged(List::Writing, pair) => planted::write_exchanged(pair.at, values, out),
            _ => Independent.write_section(values, out),
        };
        self.written(answer, out)
    }
    fn write_again(&self, input: &[u8], security_first: bool, out: &mut [u8]) -> Answer<usize> {
        let section = independent::read(input, security_first)?;
        self.write_section(&SectionValues::of(&section, input), out)
    }
    fn read_value(&self, input: &[u8], security_first: bool) -> Answer<BodyValue> {
        match self.0 {
            Fault::ValueRead(wrong) => planted::read_value(wrong, input, security_first),
            Fault::Exchanged(List::Value, pair) => {
                planted::read_value_exchanged(pair.at, input, security_first)
            }
            _ => Independent.read_value(input, security_first),
        }
    }
    fn value_of_section(&self, input: &[u8], security_first: bool) -> Answer<BodyValue> {
        match self.0 {
            Fault::ValueOfSection(wrong) => planted::read_value(wrong, input, security_first),
            _ => self.read_value(input, security_first),
        }
    }
    fn value_of(&self, body_type: u32, body: &[u8]) -> Answer<BodyValue> {
        match self.0 {
            Fault::ValueOfBody(wrong) => planted::value_of(wrong, body_type, body),
            Fault::Exchanged(List::Body, pair) => planted::value_of_exchanged(pair.at, body_type, body),
            _ => Independent.value_of(body_type, body),
        }
    }
    fn write_value(&self, value: BodyValue, out: &mut [u8]) -> Answer<usize> {
        let answer = match self.0 {
            Fault::ValueWritten(wrong) => planted::write_value(wrong, value, out),
            _ => Independent.write_value(value, out),
        };
        self.written(answer, out)
    }
    fn told(&self, value: BodyValue) -> Told {
        let mut told = Independent.told(value);
        match (self.0, value) {
            (Fault::ToldBits, BodyValue::I32(number)) => told.bits = i64::from(number) as u64,
            (Fault::ToldType, BodyValue::U32(_)) => told.body_type = 3,
            (Fault::ToldSize, _) => told.size = 8,
            (Fault::ToldBody, _) => told.body.reverse(),
            _ => {}
        }
        told
    }
    fn same_value(&self, one: BodyValue, other: BodyValue) -> bool {
        match (self.0, one, other) {
            (Fault::SameFloats, BodyValue::F32(one), BodyValue::F32(other)) => one == other,
            (Fault::SameFloats, BodyValue::F64(one), BodyValue::F64(other)) => one == other,
            (Fault::SameBits, ..) => one.bits() == other.bits(),
            _ => Independent.same_value(one, other),
        }
    }
    fn read_image<'a>(&self, input: &'a [u8]) -> Answer<Image<'a>> {
        match self.0 {
            Fault::ReadImage => planted::read_image(input),
            Fault::Exchanged(List::ImageRead, pair) => planted::read_image_exchanged(pair.at, input),
            _ => Independent.read_image(input),
        }
    }
    fn write_image(&self, format: [u8; 2], fixed: &[u8], text: &[u8], out: &mut [u8]) -> Answer<usize> {
        let answer = match self.0 {
            Fault::WriteImage => planted::write_image(format[0], format[1], fixed, text, out),
            Fault::Exchanged(List::ImageWritten, pair) => {
                planted::write_image_exchanged(pair.at, format, fixed, text, out)
            }
            _ => Independent.write_image(format, fixed, text, out),
        };
        self.written(answer, out)
    }
    fn defaulted<'a>(&self, request: &Request<'a>) -> Answer<Properties<'a>> {
        match self.0 {
            Fault::Defaulted => planted::defaulted(request).map(properties_made),
            Fault::RetiredSent(wrong) => planted::defaulted_retired(wrong, request).map(properties_made),
            Fault::Timed(wrong) => planted::defaulted_timed(wrong, request).map(properties_made),
            Fault::Exchanged(List::Sending, pair) => {
                planted::defaulted_exchanged(pair.at, request).map(properties_made)
            }
            _ => Independent.defaulted(request),
        }
    }
    fn properties<'a>(&self, input: &'a [u8], security_first: bool) -> Answer<Properties<'a>> {
        match self.0 {
            Fault::Known(wrong) => planted::properties(wrong, input, security_first).map(properties_made),
            _ => Independent.properties(input, security_first),
        }
    }
    fn send(&self, request: &Request<'_>, out: &mut [u8]) -> Answer<Sent> {
        let length = match self.0 {
            Fault::Send => planted::send(request, out),
            Fault::ClassSent(extra) => planted::send_class(extra, request, out),
            Fault::RetiredSent(wrong) => planted::send_retired(wrong, request, out),
            Fault::Timed(wrong) => planted::send_timed(wrong, request, out),
            Fault::Exchanged(List::Sending, pair) => planted::send_exchanged(pair.at, request, out),
            _ => independent::request::send(request, out),
        };
        // What a wrong side lets through is no matter of whether a SecurityHeader stands first.
        let passed = Request { class: None, privacy_level: None, hash_algorithm: Some(0), ..*request };
        let answer = sent(&passed, self.written(length, out))?;
        Ok(if self.0 == Fault::SentFirst { Sent { security_first: false, ..answer } } else { answer })
    }
    fn next_record<'a>(&self, rest: &'a [u8]) -> Next<'a> {
        match (self.0, Independent.next_record(rest)) {
            (Fault::RecordStop, Next::Stop) => Next::End,
            (fault, Next::Found(record)) => Next::Found(wrong_record(fault, record)),
            (_, next) => next,
        }
    }
    fn records<'a>(&self, file: &'a [u8]) -> Records<'a> {
        let records = Independent.records(file);
        match self.0 {
            Fault::StopNumber => {
                Records { stop: records.stop.map(|(number, place)| (number + 1, place)), ..records }
            }
            _ => records,
        }
    }
    fn read_day(&self, file: &[u8], table: &mut [Slot]) -> Answer<usize> {
        match self.0 {
            Fault::Day(wrong) => lend_answers(table, |answers| planted::read_day(wrong, file, answers)),
            _ => Independent.read_day(file, table),
        }
    }
    fn list(&self, file: &[u8], source: Source) -> io::Result<Vec<u8>> {
        let mut lines = Vec::new();
        match self.0 {
            Fault::List => planted::list(file, &mut lines)?,
            Fault::PlaceListed(wrong) => planted::list_placed(wrong, file, &mut lines)?,
            Fault::Exchanged(List::Record, pair) => planted::list_exchanged(pair.at, file, &mut lines)?,
            Fault::LeftOut(test) => planted::list_without(test, file, &mut lines)?,
            _ => lines = Independent.list(file, source)?,
        }
        Ok(lines)
    }
}

/// The start of a section that is read wrongly in portions.
fn in_portions(wrong: WrongPortions, security_first: bool) -> Box<dyn Portions> {
    Box::new(Held {
        state: planted::Portions::new(wrong, security_first),
        portion: planted::Portions::portion,
        finish: |state| state.finish().map(summary_made),
    })
}

/// The record with the fault in it.
fn wrong_record(fault: Fault, record: Record<'_>) -> Record<'_> {
    match (fault, record.answer) {
        (Fault::RecordLine, Ok(line)) => {
            Record { answer: Ok(Line { label: 2 * line.label, ..line }), ..record }
        }
        (Fault::RecordSection, Ok(line)) => Record { section: &record.section[..line.total], ..record },
        (Fault::PlaceInRecord(wrong), Err(right)) => {
            let placed = planted::read_placed(wrong, record.section, record.security_first);
            Record { answer: Err(placed.err().unwrap_or(right)), ..record }
        }
        (Fault::RecordFirst, _) => Record { security_first: false, ..record },
        _ => record,
    }
}

/// That the kind of comparison which `run` makes holds for the independent library and finds each fault in it.
fn finds(faults: &[Fault], run: impl Fn(Sides<'_>) -> Tally) {
    let library = Library::new(None);
    let faithful = run(Sides { one: &library, other: &Independent });
    assert_eq!(faithful.differences(), 0, "{:#?}", faithful.first());
    for &fault in faults {
        let wrong = run(Sides { one: &library, other: &Planted(fault) });
        println!("{fault:?}: {} of {}", wrong.differences(), wrong.cases());
        assert!(wrong.differences() > 0, "{fault:?} is not found: {wrong}");
        if let Fault::Exchanged(_, pair) = fault {
            assert_eq!(wrong.differences(), wrong.times_met(pair), "{pair} shows where both are broken");
        }
    }
}

#[test]
fn sections_read_and_copied() {
    use Fault::{LabelShown, Read, Refusal, SameSummary, SupportCopy, WriteSection};
    let mut faults = vec![Read, SameSummary, LabelShown, SupportCopy, WriteSection, Refusal];
    faults.extend(WrongVerdict::ALL.map(Fault::Verdict));
    faults.extend(WrongRetired::ALL.map(Fault::Retired));
    faults.push(Fault::RetiredWritten);
    faults.extend(WrongPlace::ALL.map(Fault::PlaceRead));
    faults.extend([WrongPlace::HeaderStart, WrongPlace::UnitAfter].map(Fault::PlaceCopied));
    faults.extend(WrongYes::all().into_iter().map(Fault::Proposed));
    faults.append(&mut exchanges(List::Reading));
    finds(&faults, |sides| {
        let [sections, _] = sections::run(sides, CASES, &mut Random::new(1));
        sections
    });
}

#[test]
fn every_class() {
    let gaps = [0x8008, 0xC003, 0x4001];
    let faults = [gaps.map(Fault::ClassRead), gaps.map(Fault::ClassWritten), gaps.map(Fault::ClassSent)];
    finds(&faults.concat(), |sides| classes::run(sides, &mut Random::new(11)));
}

#[test]
fn every_pair() {
    let faults = WrongVerdict::ALL.map(Fault::Verdict);
    finds(&faults, |sides| pairs::run(sides, &mut Random::new(12)));
}

#[test]
fn everything_retired() {
    let faults = [&WrongRetired::ALL.map(Fault::Retired)[..], &[Fault::RetiredWritten]].concat();
    finds(&faults, |sides| retired::run_reading(sides, &mut Random::new(13)));
    finds(&WrongStep::ALL.map(Fault::RetiredSent), retired::run_sending);
}

#[test]
fn places_read() {
    use WrongField::{FirstHeader, HeaderAtFlags, NameOffset, Place, SizeAtFlags};
    let wrong = WrongPlace::ALL.into_iter().chain([WrongPlace::READ]);
    let named = [FirstHeader, HeaderAtFlags, NameOffset, Place, SizeAtFlags];
    let faults: Vec<_> = wrong.map(Fault::PlaceRead).chain(named.map(Fault::FieldOfRefusal)).collect();
    finds(&faults, |sides| places::run_reading(sides, CASES, &mut Random::new(14)));
}

#[test]
fn places_written() {
    let wrong = WrongPlace::ALL.into_iter().chain(WrongPlace::WRITTEN);
    let faults: Vec<_> = wrong.map(Fault::PlaceWritten).collect();
    finds(&faults, |sides| places::run_writing(sides, CASES, &mut Random::new(15)));
}

#[test]
fn places_of_units() {
    use WrongPlace::{
        Block, FromPart, FromType, LastUnit, LastZero, TypeAsUnits, Unaligned, UnitAfter, ZeroByte,
    };
    let wrong = [Block, FromPart, FromType, LastUnit, LastZero, TypeAsUnits, Unaligned, UnitAfter, ZeroByte];
    let faults = [wrong.map(Fault::PlaceRead), wrong.map(Fault::PlaceWritten)].concat();
    finds(&faults, places::run_units);
}

#[test]
fn fields_named() {
    let in_refusals = [WrongField::SizeAtFlags, WrongField::HeaderAtFlags, WrongField::FirstHeader];
    let at_places = WrongField::all().into_iter().filter(|wrong| !in_refusals.contains(wrong));
    let faults: Vec<_> = at_places.map(Fault::FieldAtPlace).collect();
    let faults = [&faults[..], &in_refusals.map(Fault::FieldOfRefusal)].concat();
    finds(&faults, |sides| fields::run(sides, CASES, &mut Random::new(16)));
}

#[test]
fn refused_alike() {
    let run = |sides: Sides<'_>| alike::run(sides, CASES, &mut Random::new(17));
    finds(&[], run);
    // both sides have the fault, so that it shows in what one of them says of two inputs
    for fault in [Dependence::ALL.map(Fault::Depends), Dependence::ALL.map(Fault::DependsCopied)].concat() {
        let wrong = run(Sides { one: &Planted(fault), other: &Planted(fault) });
        assert!(wrong.differences() > 0, "{fault:?} is not found: {wrong}");
    }
}

#[test]
fn sections_swept() {
    let faults = [Fault::Read, Fault::Retired(WrongRetired::Sha1)];
    finds(&faults, |sides| sweeps::run(sides, &mut Random::new(2)));
}

#[test]
fn properties_of_sections() {
    let faults = WrongKnown::ALL.map(Fault::Known);
    finds(&faults, |sides| section_properties::run(sides, CASES, &mut Random::new(18)));
}

#[test]
fn demand_3_of_one_side() {
    let run = |side: &dyn Side| properties::run(side, CASES, &mut Random::new(3));
    assert_eq!(run(&Independent).differences(), 0);
    let others = [Fault::SameSummary, Fault::SupportCopy, Fault::Refusal];
    let proposed = WrongYes::all().into_iter().map(Fault::Proposed);
    for fault in others.into_iter().chain(proposed) {
        assert!(run(&Planted(fault)).differences() > 0, "{fault:?}");
    }
}

#[test]
fn section_values_written() {
    let faults = vec![Fault::WriteSection, Fault::RetiredWritten, Fault::Refusal];
    let wrong = WrongPlace::ALL.into_iter().chain(WrongPlace::WRITTEN).map(Fault::PlaceWritten);
    let faults = [faults, wrong.collect(), exchanges(List::Writing)].concat();
    finds(&faults, |sides| writing::run(sides, CASES, &mut Random::new(4)));
}

#[test]
fn queue_images_read() {
    let faults = [vec![Fault::ReadImage], exchanges(List::ImageRead)].concat();
    finds(&faults, |sides| queues::run_reading(sides, CASES, &mut Random::new(5)));
}

#[test]
fn queue_values_written() {
    let faults = [vec![Fault::WriteImage, Fault::Refusal], exchanges(List::ImageWritten)].concat();
    finds(&faults, |sides| queues::run_writing(sides, CASES, &mut Random::new(6)));
}

/// C-18's faults that show where requests are sent and read back.
fn in_requests() -> Vec<Fault> {
    use WrongKnown::{
        AllocationAsSize, EncryptionByKey, HandlingDefaulted, HandlingZero, PrivacyThree, PrivacyUnmapped,
        ProviderZero, SenderByIdentity, SenderZero, TitleNull,
    };
    let wrong = [
        AllocationAsSize,
        EncryptionByKey,
        HandlingDefaulted,
        HandlingZero,
        PrivacyThree,
        PrivacyUnmapped,
        ProviderZero,
        SenderByIdentity,
        SenderZero,
        TitleNull,
    ];
    WrongTime::ALL.map(Fault::Timed).into_iter().chain(wrong.map(Fault::Known)).collect()
}

#[test]
fn requests_sent() {
    let faults = vec![Fault::Defaulted, Fault::Send, Fault::SentFirst, Fault::Refusal];
    let wrong = WrongStep::ALL.map(Fault::RetiredSent);
    let faults = [faults, wrong.to_vec(), in_requests(), exchanges(List::Sending)].concat();
    finds(&faults, |sides| requests::run(sides, CASES, &mut Random::new(7)));
}

#[test]
fn day_files_listed() {
    use Fault::{List as Listed, RecordFirst, RecordLine, RecordSection, RecordStop, StopNumber};
    let mut faults = vec![Listed, RecordLine, RecordSection, RecordFirst, RecordStop, StopNumber];
    let wrong = [WrongPlace::HeaderStart, WrongPlace::LastUnit];
    faults.extend(wrong.map(Fault::PlaceInRecord));
    faults.extend(wrong.map(Fault::PlaceListed));
    faults.append(&mut exchanges(List::Record));
    // Tests of a head answer alike: that each of them counts shows where it is left out.
    faults.extend(planted::HEAD_TESTS.map(Fault::LeftOut));
    finds(&faults, |sides| {
        listing::run(sides, CASES, &mut Random::new(8)).expect("the listing program runs")
    });
}

#[test]
fn days_read() {
    let faults: Vec<_> = WrongDay::all().into_iter().map(Fault::Day).collect();
    finds(&faults, |sides| days::run(sides, DAYS, &mut Random::new(19)));
}

#[test]
fn sections_in_portions() {
    let faults: Vec<_> =
        WrongPortions::all().into_iter().map(Fault::Portions).chain([Fault::Named]).collect();
    finds(&faults, |sides| portions::run(sides, PORTIONS, &mut Random::new(20)));
    finds(&exchanges_read(), |sides| portions::run(sides, CASES, &mut Random::new(20)));
    finds(&WrongPortions::LONG.map(Fault::Portions), portions::run_behind);
}

#[test]
fn a_section_cut_anywhere() {
    use WrongPortions::{
        FixedApart, HalvesApart, LabelHalvesExchanged, Moved, NameInCutHeader, SidFromPortion, StartEarly,
        TypeFromPortion, UnitFromPortion,
    };
    let gathered =
        [HalvesApart, LabelHalvesExchanged, TypeFromPortion, SidFromPortion, FixedApart, StartEarly];
    let judged =
        [NameInCutHeader, UnitFromPortion, Moved("S11", "S10"), Moved("S10", "S9"), Moved("P7", "P6")];
    let faults = [&gathered[..], &judged].concat();
    finds(&faults.into_iter().map(Fault::Portions).collect::<Vec<_>>(), portions::cuts::run);
}

/// The exchanges of reading's steps but with 13, which only a copy has.
fn exchanges_read() -> Vec<Fault> {
    let mut faults = exchanges(List::Reading);
    faults.retain(|fault| !matches!(fault, Fault::Exchanged(_, pair) if pair.names[1] == "13"));
    faults
}

#[test]
fn values_read() {
    let wrong = || WrongValue::all().into_iter();
    let faults: Vec<_> = wrong().map(Fault::ValueRead).chain(wrong().map(Fault::ValueOfSection)).collect();
    let faults = [faults, exchanges(List::Value)].concat();
    finds(&faults, |sides| values::run(sides, CASES, &mut Random::new(21)));
}

#[test]
fn values_of_bodies() {
    let faults: Vec<_> = WrongValue::of_body().into_iter().map(Fault::ValueOfBody).collect();
    let faults = [faults, exchanges(List::Body)].concat();
    finds(&faults, |sides| values::run_bodies(sides, CASES, &mut Random::new(22)));
}

/// What is wrong in what is said of a number, or of two.
const IN_VALUES: [Fault; 6] =
    [Fault::ToldBits, Fault::ToldType, Fault::ToldSize, Fault::ToldBody, Fault::SameFloats, Fault::SameBits];

#[test]
fn values_written() {
    let mut faults: Vec<_> = WrongWriting::all().into_iter().map(Fault::ValueWritten).collect();
    faults.extend(IN_VALUES);
    faults.push(Fault::Refusal);
    finds(&faults, |sides| values::written::run(sides, CASES, &mut Random::new(23)));
}

/// Types, sizes and patterns that are swept tell these.
#[test]
fn values_swept() {
    use WrongValue::{AllocationAsSize, MoreTypes, Number, Padded};
    let read = [AllocationAsSize, MoreTypes, Padded, Number(WrongNumber::Flushed)].map(Fault::ValueRead);
    let written = [WrongNumber::OneNan, WrongNumber::Quieted].map(WrongWriting::Number);
    finds(&[&read[..], &written.map(Fault::ValueWritten)].concat(), values::swept::run);
}

/// A kind of comparison.
type Run = fn(Sides<'_>) -> Tally;

/// That `run` holds for the independent library, and not where both sides have the fault.
fn tells(fault: Fault, run: Run) {
    assert_eq!(run(Sides { one: &Independent, other: &Independent }).differences(), 0);
    let wrong = run(Sides { one: &Planted(fault), other: &Planted(fault) });
    println!("{fault:?} on both sides: {} of {}", wrong.differences(), wrong.cases());
    assert!(wrong.differences() > 0, "{fault:?} is not found: {wrong}");
}

/// Where both sides are wrong in the same way, what has to hold of one side alone tells.
#[test]
fn the_same_fault_on_both_sides() {
    let sections: Run = |sides| sections::run(sides, CASES, &mut Random::new(9)).into_iter().next().unwrap();
    let writing: Run = |sides| writing::run(sides, CASES, &mut Random::new(9));
    let reading_images: Run = |sides| queues::run_reading(sides, CASES, &mut Random::new(9));
    let requests: Run = |sides| requests::run(sides, CASES, &mut Random::new(9));
    let classes: Run = |sides| classes::run(sides, &mut Random::new(9));
    let pairs: Run = |sides| pairs::run(sides, &mut Random::new(9));
    let retired: Run = |sides| retired::run_reading(sides, &mut Random::new(9));
    let wrong_verdicts = WrongRetired::ALL.map(|wrong| (Fault::Retired(wrong), retired));
    let wrong_steps = WrongStep::ALL.map(|wrong| (Fault::RetiredSent(wrong), retired::run_sending as Run));
    let others = [
        (Fault::ClassRead(0x8008), classes),
        (Fault::ClassWritten(0xC003), classes),
        (Fault::ClassSent(0x4001), classes),
        (Fault::Verdict(WrongVerdict::LevelIgnored), pairs),
        (Fault::Verdict(WrongVerdict::LevelZero), pairs),
        (Fault::Verdict(WrongVerdict::EbIgnored), pairs),
        (Fault::RetiredWritten, retired),
        (Fault::RetiredSent(WrongStep::LeftOut), requests),
        (Fault::Read, sections),
        (Fault::SameSummary, sections),
        (Fault::Proposed(WrongYes::PropertiesX), sections),
        (Fault::Refusal, sections),
        (Fault::WriteSection, writing),
        (Fault::WriteImage, reading_images),
        (Fault::Send, requests),
        (Fault::SentFirst, requests),
        (Fault::Refusal, requests),
    ];
    for (fault, run) in others.into_iter().chain(wrong_verdicts).chain(wrong_steps) {
        tells(fault, run);
    }
}

/// The same for times, and for what is known of a section.
#[test]
fn the_same_wrong_properties_on_both_sides() {
    for fault in in_requests() {
        tells(fault, |sides| requests::run(sides, CASES, &mut Random::new(9)));
    }
    for wrong in WrongKnown::ALL {
        tells(Fault::Known(wrong), |sides| section_properties::run(sides, CASES, &mut Random::new(9)));
    }
}

/// The same for a day's table.
#[test]
fn the_same_wrong_table_on_both_sides() {
    for wrong in WrongDay::all() {
        tells(Fault::Day(wrong), |sides| days::run(sides, DAYS, &mut Random::new(9)));
    }
}

/// The same for portions: each side is held against its own reading in one go.
#[test]
fn the_same_wrong_portions_on_both_sides() {
    for wrong in WrongPortions::all() {
        tells(Fault::Portions(wrong), |sides| portions::run(sides, PORTIONS, &mut Random::new(9)));
    }
    for wrong in WrongPortions::LONG {
        tells(Fault::Portions(wrong), portions::run_behind);
    }
    tells(Fault::Named, |sides| portions::run(sides, PORTIONS, &mut Random::new(9)));
}

/// The same for numbers: each side is held against its own reading, and against C-16.
#[test]
fn the_same_wrong_value_on_both_sides() {
    for wrong in WrongValue::all() {
        tells(Fault::ValueRead(wrong), |sides| values::run(sides, CASES, &mut Random::new(9)));
    }
    for wrong in WrongValue::of_body() {
        tells(Fault::ValueOfBody(wrong), |sides| values::run_bodies(sides, CASES, &mut Random::new(9)));
    }
    let written = WrongWriting::all().into_iter().map(Fault::ValueWritten).chain(IN_VALUES);
    for fault in written.chain([Fault::Refusal]) {
        tells(fault, |sides| values::written::run(sides, CASES, &mut Random::new(9)));
    }
}

/// The same for places and the fields that they lie in.
#[test]
fn the_same_wrong_place_on_both_sides() {
    for wrong in WrongPlace::ALL.into_iter().chain([WrongPlace::READ]) {
        tells(Fault::PlaceRead(wrong), |sides| places::run_reading(sides, CASES, &mut Random::new(9)));
    }
    for wrong in WrongPlace::ALL.into_iter().chain(WrongPlace::WRITTEN) {
        tells(Fault::PlaceWritten(wrong), |sides| places::run_writing(sides, CASES, &mut Random::new(9)));
    }
    for fault in [Fault::PlaceRead(WrongPlace::UnitAfter), Fault::PlaceWritten(WrongPlace::Block)] {
        tells(fault, places::run_units);
    }
    use WrongField::{Early, Late, Padding, SizeAtFlags};
    let at_places = [Early(2), Late(25), Padding].map(Fault::FieldAtPlace);
    for fault in at_places.into_iter().chain([Fault::FieldOfRefusal(SizeAtFlags)]) {
        tells(fault, |sides| fields::run(sides, CASES, &mut Random::new(9)));
    }
}

#[test]
fn examples_of_the_paper() {
    let old = Fault::Verdict(WrongVerdict::LevelIgnored);
    use Fault::{Read, Retired, RetiredSent, RetiredWritten, WriteSection};
    let retired = [Retired(WrongRetired::Unsigned), RetiredWritten, RetiredSent(WrongStep::LeftOut)];
    use WrongPlace::{AtIdentity, EmptyAtFlags, EmptyAtSize, HeaderStart, LastUnit, OddAtStart};
    let placed = [HeaderStart, LastUnit, EmptyAtFlags, EmptyAtSize, AtIdentity].map(Fault::PlaceRead);
    let written = [HeaderStart, LastUnit, OddAtStart].map(Fault::PlaceWritten);
    use WrongYes::{CorrelationId, InputLengthAsked, LastBodyByte, Longer, PropertiesX, RefusedBySizes};
    let proposed = [CorrelationId, InputLengthAsked, LastBodyByte, Longer, PropertiesX, RefusedBySizes];
    let proposed = proposed.map(Fault::Proposed);
    use WrongTime::{LiveDefaulted, QueueAlways, QueueKept};
    let timed = [LiveDefaulted, QueueAlways, QueueKept].map(Fault::Timed);
    use WrongKnown::{HandlingZero, PrivacyThree, PrivacyTwo, ProviderZero, SenderZero, TitleNull};
    let known =
        [HandlingZero, PrivacyThree, PrivacyTwo, ProviderZero, SenderZero, TitleNull].map(Fault::Known);
    use WrongDay::{BadCounted, BadFromOne, EmptyBad, FilledFirst, FullRefused, NotFilled, RestCleared};
    let days = [BadCounted, BadFromOne, EmptyBad, FilledFirst, FullRefused, NotFilled, RestCleared];
    let days = days.map(Fault::Day);
    let faults =
        [&[Read, WriteSection, old][..], &retired, &placed, &written, &proposed, &timed, &known, &days];
    finds(&faults.concat(), examples::run);
}

/// The settled readings of C-12 tell these.
#[test]
fn examples_of_portions() {
    use WrongPortions::{
        CountIn, EarlyRefusal, EmptyAfter, EmptyRefused, FinishedCounted, HalvesApart, LabelShort, Moved,
        NameInCutHeader, NameKept, NothingRefused, Placed, RefusedOpen, Retired, SecondFinish,
        TypeFromPortion, TypeLost, UnitFromPortion, Verdict,
    };
    let calls = [EmptyAfter, EmptyRefused, FinishedCounted, NothingRefused, RefusedOpen, SecondFinish];
    let gathered = [CountIn(16), HalvesApart, LabelShort, TypeFromPortion];
    let judged = [EarlyRefusal, NameInCutHeader, UnitFromPortion, Placed(WrongPlace::UnitAfter)];
    let moved = [Moved("S11", "S10"), Moved("S10", "S9"), Moved("P7", "P6"), Moved("P7", "P4")];
    let told = [NameKept, Retired, TypeLost, Verdict];
    let faults = [&calls[..], &gathered, &judged, &moved, &told].concat();
    finds(&faults.into_iter().map(Fault::Portions).collect::<Vec<_>>(), examples::run);
}

/// C-16's words tell these.
#[test]
fn examples_of_values() {
    use WrongValue::{
        AllocationAsSize, AtField, DoubleOfFour, EbIgnored, EbWithoutHeader, EightForOthers, FourForDouble,
        Moved, SectionAtStart, SignLost, SizeCut, TypeCut, TypesExchanged,
    };
    let sizes =
        [AllocationAsSize, DoubleOfFour, EightForOthers, FourForDouble, SizeCut(0xFF), SizeCut(0xFFFF)];
    let types = [SignLost, TypesExchanged, TypeCut(0xFF), TypeCut(0xFFFF), TypeCut(0x7FFF_FFFF)];
    let orders = [Moved("60", "62"), Moved("61", "60"), Moved("62", "S1"), Moved("62", "P1")];
    let others = [AtField, EbIgnored, EbWithoutHeader, SectionAtStart];
    use WrongNumber::{BigEndian, HalvesExchanged, NanUnsigned, OneNan, Quieted, ZeroUnsigned};
    let numbers = [BigEndian, HalvesExchanged, NanUnsigned, OneNan, Quieted, ZeroUnsigned];
    let read = [&sizes[..], &types, &orders, &others, &numbers.map(WrongValue::Number)].concat();
    use WrongWriting::{Eight, EightAsked, EightBehind, FourAsked, PartWritten, RestCleared, ShortAtEnd};
    let wrong = [Eight, EightAsked, EightBehind, FourAsked, PartWritten, RestCleared, ShortAtEnd];
    let written = [&wrong[..], &numbers.map(WrongWriting::Number)].concat();
    let faults: Vec<_> = read.into_iter().map(Fault::ValueRead).collect();
    let written: Vec<_> = written.into_iter().map(Fault::ValueWritten).collect();
    finds(&[faults, written].concat(), examples::run);
}
