//! A section read in portions otherwise than C-12 says.

mod read;

pub use read::Portions;

use super::{Dependence, WrongPlace};

/// Wrong ways to read a section in portions.
#[derive(Debug, Clone, Copy, PartialEq, Eq)]
pub enum WrongPortions {
    /// A portion after the finish is taken.
    FinishedFed,
    /// It is refused, but its bytes are counted.
    FinishedCounted,
    /// An empty portion after the finish is let through.
    EmptyAfter,
    /// An empty portion before the finish is refused.
    EmptyRefused,
    /// An empty portion is taken for the finish.
    EmptyFinishes,
    /// A finish without any portion is refused with 14.
    NothingRefused,
    /// A second finish answers again.
    SecondFinish,
    /// A refused finish is none.
    RefusedOpen,
    /// 14 at the number of bytes that came.
    AfterAtCount,
    /// A portion is refused as soon as it is known that the section is.
    EarlyRefusal,

    /// The first half of a unit of the name is forgotten where a portion ends between the halves.
    LowHalfForgotten,
    /// Units of the name are counted from each portion's start.
    HalvesApart,
    /// A first half that is zero is taken for a zero unit where a portion ends behind it.
    HalfAsUnit,
    /// The halves of a unit of the label are exchanged where a portion ends between them.
    LabelHalvesExchanged,
    /// The label's last byte is not held.
    LabelShort,
    /// The label is held from its second byte on.
    LabelLate,
    /// The label goes on with what comes behind it, as far as there is room for one.
    BehindAsLabel,
    /// The provider's type is gathered from each portion's start.
    TypeFromPortion,
    /// The second byte of the identity is looked for in the portion of the first.
    SidFromPortion,
    /// Fixed bytes that are not all in the first portion are short.
    FixedApart,
    /// Where the MessagePropertiesHeader begins is computed when the first portion came.
    StartEarly,
    /// The bytes that came are counted in so many bits.
    CountIn(u32),
    /// More bytes than a section may have are refused.
    CountLimited,
    /// Bytes behind the section make it longer.
    BehindCounted,

    /// A name that breaks the rule gives 7 also where the header is cut.
    NameInCutHeader,
    /// The provider's type is judged as two units of the name.
    TypeJudged,
    /// The first of these steps comes right before the second.
    Moved(&'static str, &'static str),
    /// The step at this place of reading's list and the next one are exchanged.
    Exchanged(usize),
    /// A refusal depends on private bits.
    Depends(Dependence),
    /// The unit of the name that breaks the rule is counted from the portion's start.
    UnitFromPortion,
    /// Refusals are at other places.
    Placed(WrongPlace),

    /// The extension is padded before the body.
    ExtensionPadded,
    /// The summary has the name.
    NameKept,
    /// The type is lost with the name.
    TypeLost,
    /// ProviderInfoSize counts what is kept.
    SizeLost,
    /// So does the part's length.
    PartLost,
    /// The verdict on decryption is that before C-14.
    Verdict,
    /// The verdict on what is retired does not look at the hash.
    Retired,
}

impl WrongPortions {
    /// Faults in which calls are refused.
    const CALLS: [Self; 10] = [
        Self::FinishedFed,
        Self::FinishedCounted,
        Self::EmptyAfter,
        Self::EmptyRefused,
        Self::EmptyFinishes,
        Self::NothingRefused,
        Self::SecondFinish,
        Self::RefusedOpen,
        Self::AfterAtCount,
        Self::EarlyRefusal,
    ];
    /// Faults in what is gathered of the portions.
    const GATHERED: [Self; 13] = [
        Self::LowHalfForgotten,
        Self::HalvesApart,
        Self::HalfAsUnit,
        Self::LabelHalvesExchanged,
        Self::LabelShort,
        Self::LabelLate,
        Self::BehindAsLabel,
        Self::TypeFromPortion,
        Self::SidFromPortion,
        Self::FixedApart,
        Self::StartEarly,
        Self::CountIn(16),
        Self::BehindCounted,
    ];
    /// Faults in the refusals. Steps that come too early: 7 before 6; 6, and 12, of what is cut; and 12
    /// before 11 and 8.
    const JUDGED: [Self; 9] = [
        Self::Depends(Dependence::Identity),
        Self::Depends(Dependence::Padding),
        Self::NameInCutHeader,
        Self::TypeJudged,
        Self::UnitFromPortion,
        Self::Moved("S11", "S10"),
        Self::Moved("S10", "S9"),
        Self::Moved("P7", "P6"),
        Self::Moved("P7", "P4"),
    ];
    /// Wrong places: the old ones, ones counted from elsewhere, and other units.
    const PLACES: [WrongPlace; 9] = [
        WrongPlace::HeaderStart,
        WrongPlace::FromHeader,
        WrongPlace::FromPart,
        WrongPlace::FromType,
        WrongPlace::UnitAfter,
        WrongPlace::UnitsForBytes,
        WrongPlace::LastUnit,
        WrongPlace::LastZero,
        WrongPlace::Unaligned,
    ];
    /// Faults in the summary.
    const TOLD: [Self; 7] = [
        Self::ExtensionPadded,
        Self::NameKept,
        Self::TypeLost,
        Self::SizeLost,
        Self::PartLost,
        Self::Verdict,
        Self::Retired,
    ];
    /// Those that show only where more bytes come than a section may have.
    pub const LONG: [Self; 2] = [Self::CountIn(32), Self::CountLimited];

    /// All of them but [`LONG`](Self::LONG) and exchanges.
    pub fn all() -> Vec<Self> {
        let plain = [&Self::CALLS[..], &Self::GATHERED, &Self::JUDGED, &Self::TOLD].concat();
        plain.into_iter().chain(Self::PLACES.map(Self::Placed)).collect()
    }
}
