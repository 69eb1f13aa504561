//! The wrong readers: the right one with something changed in what it holds or says, or the joined bytes read
//! wrongly in one go.

use super::WrongPortions;
use crate::bytes::{breaking_unit, only_last_is_zero};
use crate::order::first_failure;
use crate::planted::{self, moved, WrongRetired, WrongVerdict};
use crate::portions;
use crate::read::{headers, properties_header, read_by, section, security_fields};
use crate::section::{PROPERTIES_FIXED, SECURITY_FIXED};
use crate::steps::{Headers, SectionStep, Test, ENDLESS, LABEL_BYTES_MOST, PROVIDER_TYPE, READING};
use crate::{number, Refusal, Section, Summary, LIMIT};

/// What is refused with 14.
const AFTER: Refusal = Refusal { number: number::AFTER_THE_FINISH, place: 0 };
/// The first bytes that are kept: more than a section may have.
const KEPT: usize = LIMIT as usize + 64;

/// A section that is read wrongly in portions.
#[derive(Debug, Clone, PartialEq, Eq)]
pub struct Portions {
    wrong: WrongPortions,
    security_first: bool,
    /// What the right reader holds, with the fault in it.
    held: portions::Portions,
    /// The first bytes that came, joined.
    joined: Vec<u8>,
    /// Where each portion begins in them.
    starts: Vec<usize>,
}

impl Portions {
    /// The start.
    pub fn new(wrong: WrongPortions, security_first: bool) -> Self {
        let held = portions::Portions::new(security_first);
        Self { wrong, security_first, held, joined: vec![], starts: vec![] }
    }

    /// Takes a portion wrongly.
    pub fn portion(&mut self, bytes: &[u8]) -> Result<(), Refusal> {
        match self.wrong {
            _ if self.held.finished => return self.after(bytes),
            WrongPortions::EmptyRefused if bytes.is_empty() => return Err(AFTER),
            WrongPortions::EmptyFinishes if bytes.is_empty() => self.held.finished = true,
            _ => self.take(bytes)?,
        }
        let early = self.wrong == WrongPortions::EarlyRefusal;
        let refusal = if early { self.held.answer().err() } else { None };
        refusal.filter(|refusal| refusal.number != number::INPUT_SHORT).map_or(Ok(()), Err)
    }

    /// A portion after the finish.
    fn after(&mut self, bytes: &[u8]) -> Result<(), Refusal> {
        match self.wrong {
            WrongPortions::FinishedFed => {
                self.held.finished = false;
                let taken = self.take(bytes);
                self.held.finished = true;
                taken
            }
            WrongPortions::FinishedCounted => {
                self.held.count += bytes.len();
                Err(AFTER)
            }
            WrongPortions::EmptyAfter if bytes.is_empty() => Ok(()),
            _ => Err(self.is_after()),
        }
    }

    /// The refusal of what comes after the finish.
    fn is_after(&self) -> Refusal {
        let place = if self.wrong == WrongPortions::AfterAtCount { self.held.count } else { 0 };
        Refusal { place, ..AFTER }
    }

    /// Hands a portion on to the right reader, and changes what that holds.
    fn take(&mut self, bytes: &[u8]) -> Result<(), Refusal> {
        let name = &mut self.held.name;
        match (self.wrong, &mut name.half) {
            (WrongPortions::LowHalfForgotten, Some(half)) => *half = 0,
            (WrongPortions::HalvesApart, half) => *half = None,
            _ => {}
        }
        self.starts.push(self.joined.len());
        self.joined.extend(bytes.iter().take(KEPT - self.joined.len()));
        self.held.portion(bytes)?;
        let name = &mut self.held.name;
        match (self.wrong, name.half) {
            (WrongPortions::HalfAsUnit, Some(0)) => name.zero = name.zero.or(Some(name.count)),
            (WrongPortions::CountIn(bits), _) => self.held.count &= (1 << bits) - 1,
            _ => {}
        }
        Ok(())
    }

    /// Finishes wrongly.
    pub fn finish(&mut self) -> Result<Summary<'_>, Refusal> {
        if self.held.finished && self.wrong != WrongPortions::SecondFinish {
            return Err(self.is_after());
        }
        self.spoil();
        let refused = self.answer().is_err();
        self.held.finished = !(self.wrong == WrongPortions::RefusedOpen && refused);
        self.answer()
    }

    /// Changes what was gathered.
    fn spoil(&mut self) {
        let Headers { security, properties, .. } = headers(&self.joined, self.security_first, ENDLESS);
        let label_at = properties.label_at() as usize;
        let label = &mut self.held.label[..LABEL_BYTES_MOST.min(properties.label_bytes as usize)];
        match (self.wrong, label) {
            (WrongPortions::LabelHalvesExchanged, label) => {
                for cut in self.starts.iter().filter_map(|start| start.checked_sub(label_at)) {
                    if cut % 2 == 1 && cut < label.len() {
                        label.swap(cut - 1, cut);
                    }
                }
            }
            (WrongPortions::LabelShort, [.., last]) => *last = 0,
            (WrongPortions::LabelLate, label) => {
                let late = self.joined.iter().skip(label_at + 1);
                label.iter_mut().zip(late).for_each(|(held, byte)| *held = *byte);
            }
            (WrongPortions::TypeFromPortion, _) => {
                let type_at = security.map_or(0, |header| header.name_at() as usize - PROVIDER_TYPE);
                for (&byte, at) in self.joined.iter().zip(0..).skip(type_at).take(PROVIDER_TYPE) {
                    let start = portion_start(&self.starts, at).max(type_at);
                    self.held.provider_type[at - start] = byte;
                }
            }
            (WrongPortions::SidFromPortion, _) if self.starts.contains(&(SECURITY_FIXED + 1)) => {
                self.held.sid[1] = 0;
            }
            _ => {}
        }
    }

    /// The wrong answer.
    fn answer(&self) -> Result<Summary<'_>, Refusal> {
        let right = self.held.answer();
        match self.wrong {
            WrongPortions::NothingRefused if self.starts.is_empty() => Err(AFTER),
            WrongPortions::FixedApart if self.is_fixed_apart() => Err(Refusal::at_start(number::INPUT_SHORT)),
            WrongPortions::CountLimited if self.held.count > LIMIT as usize => {
                Err(Refusal::at_start(number::LIMIT))
            }
            WrongPortions::NameInCutHeader => self.name_in_cut_header().map_or(right, Err),
            WrongPortions::UnitFromPortion => right.map_err(|refusal| self.counted_from_portion(refusal)),
            WrongPortions::NameKept => {
                crate::read(&self.joined, self.security_first).map(|section| section.summary)
            }
            _ => match self.in_one_go() {
                Some(section) => section.map(|section| section.summary.without_provider_name()),
                None => right.map(|summary| self.told(summary)),
            },
        }
    }

    /// What reading the joined bytes wrongly gives, where the fault is one of reading.
    fn in_one_go(&self) -> Option<Result<Section<'_>, Refusal>> {
        let (input, first) = (&self.joined[..], self.security_first);
        Some(match self.wrong {
            WrongPortions::Moved(step, before) => {
                read_by(&moved(&READING, step, before), input, first, ENDLESS)
            }
            WrongPortions::TypeJudged => read_by(&type_judged(), input, first, ENDLESS),
            WrongPortions::Exchanged(at) => planted::read_exchanged(at, input, first),
            WrongPortions::Depends(wrong) => planted::read_dependent(wrong, input, first),
            WrongPortions::Placed(wrong) => planted::read_placed(wrong, input, first),
            WrongPortions::ExtensionPadded => planted::read(input, first),
            WrongPortions::Verdict => planted::read_verdict(WrongVerdict::LevelIgnored, input, first),
            WrongPortions::Retired => planted::read_retired(WrongRetired::HashIgnored, input, first),
            WrongPortions::StartEarly => self.started_early(),
            WrongPortions::BehindAsLabel => self.with_long_label(),
            _ => return None,
        })
    }

    /// How many bytes the first portion brought that was not empty.
    fn first_portion(&self) -> usize {
        self.starts.iter().copied().find(|&start| start > 0).unwrap_or(self.joined.len())
    }

    fn is_fixed_apart(&self) -> bool {
        self.first_portion() < if self.security_first { SECURITY_FIXED } else { PROPERTIES_FIXED }
    }

    /// 7, where a header that is cut has a name that breaks the rule.
    fn name_in_cut_header(&self) -> Option<Refusal> {
        let headers = headers(&self.joined, self.security_first, ENDLESS);
        first_failure(&READING, &headers).filter(|step| step.name == "S9")?;
        let header = headers.security?;
        let units = header.provider.checked_sub(PROVIDER_TYPE as u64)? / 2;
        let breaking = self.held.name.breaking(units).filter(|unit| *unit < self.held.name.count)?;
        Some(Refusal { number: number::PROVIDER, place: (header.name_at() + 2 * breaking) as usize })
    }

    /// The refusal of the name's text with its place counted from the portion's start.
    fn counted_from_portion(&self, refusal: Refusal) -> Refusal {
        let in_text = refusal.number == number::PROVIDER && refusal.place != 0;
        let start = if in_text { portion_start(&self.starts, refusal.place) } else { 0 };
        Refusal { place: refusal.place - start, ..refusal }
    }

    /// Reads with the sizes that came in the first portion saying where the MessagePropertiesHeader begins.
    fn started_early(&self) -> Result<Section<'_>, Refusal> {
        let mut headers = headers(&self.joined, self.security_first, ENDLESS);
        if self.security_first && self.is_fixed_apart() {
            let mut fixed = [0; SECURITY_FIXED];
            fixed[..self.first_portion()].copy_from_slice(&self.joined[..self.first_portion()]);
            let at = security_fields(&fixed, self.joined.len()).length();
            headers.properties = properties_header(&self.joined, at);
        }
        headers.judge(&READING)?;
        Ok(section(&self.joined, &headers))
    }

    /// Reads with all that comes behind a label in it, as far as there is room for one.
    fn with_long_label(&self) -> Result<Section<'_>, Refusal> {
        let mut headers = headers(&self.joined, self.security_first, ENDLESS);
        if let Some(label) = self.joined.get(headers.properties.label_at() as usize..) {
            let room = if headers.properties.label_bytes == 0 { 0 } else { LABEL_BYTES_MOST };
            headers.properties.label = &label[..room.min(label.len())];
        }
        headers.judge(&READING)?;
        Ok(section(&self.joined, &headers))
    }

    /// The summary with the fault in it.
    fn told<'a>(&self, mut summary: Summary<'a>) -> Summary<'a> {
        const TYPE: usize = PROVIDER_TYPE;
        let security = summary.security.as_mut();
        match (self.wrong, security) {
            (WrongPortions::TypeLost, Some(security)) => security.provider_type = None,
            (WrongPortions::SizeLost, Some(security)) => {
                security.provider_size = security.provider_size.min(TYPE as u32);
            }
            (WrongPortions::PartLost, _) => {
                summary.parts.provider.length = summary.parts.provider.length.min(TYPE);
            }
            (WrongPortions::BehindCounted, _) => summary.length = self.held.count,
            _ => {}
        }
        summary
    }
}

/// Where the portion begins that brought the byte at `at`.
fn portion_start(starts: &[usize], at: usize) -> usize {
    starts.iter().copied().rfind(|&start| start <= at).unwrap_or(0)
}

/// Reading's steps with S11 on the type too.
fn type_judged() -> Vec<SectionStep> {
    let test = Test::Security {
        place: |header| header.name_at() - PROVIDER_TYPE as u64 + breaking_unit(header.provider_info),
        fails: |header| !header.provider_info.is_empty() && !only_last_is_zero(header.provider_info),
    };
    let judged = |step: SectionStep| if step.name == "S11" { SectionStep { test, ..step } } else { step };
    READING.into_iter().map(judged).collect()
}
