//! A section that comes in portions.

use std::fmt;

use crate::part::found;
use crate::refusal::Refusal;
use crate::section::First;
use crate::summary::Summary;
use crate::text::Text;
use crate::{ffi, ffi::accepted};

/// A section that comes a few bytes at a time, where there is no room for the whole.
///
/// The answer at the [`finish`](Self::finish) is that of [`summarize`](crate::summarize) for all portions joined,
/// wherever they were cut, inside a field or a unit too. No portion at all is the empty input.
///
/// It takes 664 bytes, whatever the section's length, and nothing is allocated. A clone goes on by itself, so one is
/// a way back to an earlier point. Two are equal when they hold the same: they answer alike from there on.
///
/// Among its bytes are private ones, which its `Debug` does not show.
///
/// ```
/// use ugbariteyo::{summarize, First, Kind, Portions};
///
/// let mut section = [0; 60];
/// section[1] = 2; // LabelLength
/// section[56] = b'7';
///
/// let mut portions = Portions::new(First::PropertiesHeader);
/// for bytes in section.chunks(7) {
///     portions.portion(bytes)?;
/// }
/// let summary = portions.finish()?;
/// assert_eq!(summary.label.to_string(), "7");
/// assert_eq!(summary, summarize(&section, First::PropertiesHeader)?);
///
/// let refusal = portions.portion(b"more").unwrap_err();
/// assert_eq!(refusal.kind(), Some(Kind::AfterTheFinish));
/// # Ok::<(), ugbariteyo::Refusal>(())
/// ```
#[derive(Clone, PartialEq, Eq, Hash)]
pub struct Portions(ffi::Portions);

impl Portions {
    /// The start of a section.
    #[inline]
    pub fn new(first: First) -> Self {
        Self(ffi::Portions::start(first))
    }

    /// Takes the next bytes, or none. Those behind the section are not read, in any number.
    ///
    /// # Errors
    ///
    /// 14 after the finish. Nothing changes then. What is wrong with the section is said at the finish.
    #[inline]
    pub fn portion(&mut self, bytes: &[u8]) -> Result<(), Refusal> {
        accepted(self.0.portion(bytes))
    }

    /// The summary, once the sender says that the section is finished. Its label is borrowed from here, the only part
    /// that is held. The provider's name is judged as it passes: its place, length and type are in the summary, but
    /// [`provider_name`](crate::Security::provider_name) is empty, as
    /// [`without_provider_name`](Summary::without_provider_name) leaves it.
    ///
    /// # Errors
    ///
    /// As of [`summarize`](crate::summarize), with the place in all portions joined, which is a finish too. 14 after
    /// the finish: nothing changes then.
    #[inline]
    pub fn finish(&mut self) -> Result<Summary<'_>, Refusal> {
        let ffi::Summarized { refusal, summary } = self.0.finish();
        accepted(refusal)?;
        let label = ffi::Part { start: 56, length: summary.parts.label.length };
        Ok(Summary::new(&summary, Text::new(found(label, &self.0.properties)), Text::default()))
    }
}

impl fmt::Debug for Portions {
    fn fmt(&self, f: &mut fmt::Formatter<'_>) -> fmt::Result {
        let [first, finished, received, ..] = self.0.counters;
        f.debug_struct("Portions")
            .field("first", if first == 0 { &First::PropertiesHeader } else { &First::SecurityHeader })
            .field("received", &received)
            .field("finished", &(finished != 0))
            .finish_non_exhaustive()
    }
}
