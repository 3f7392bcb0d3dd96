//! What a job takes, by the text of its /proc/PID/smaps.

use crate::boundary;
use crate::refusal::Refusal;
use crate::source::{Part, Source};

/// Totals of a measure, in bytes.
#[derive(Clone, Copy, PartialEq, Eq, Debug)]
pub struct Figures {
    pub rss: u64,
    pub pss: u64,
    pub swap_pss: u64,
}

/// A closed measure. Only measuring a text makes one, and it can't be copied: the call that charges a job for it uses
/// it up, so none is charged twice.
#[derive(Debug)]
pub struct Measure {
    pub(crate) cells: boundary::Measure,
}

impl Measure {
    /// How many mappings the text has.
    pub fn mappings(&self) -> u32 {
        self.cells.mappings
    }

    /// The three totals.
    pub fn totals(&self) -> Figures {
        Figures {
            rss: self.cells.rss,
            pss: self.cells.pss,
            swap_pss: self.cells.swap_pss,
        }
    }
}

/// Measures the text of a source.
pub fn measure(source: Source<'_>) -> Result<Measure, Refusal> {
    boundary::measure(source).map(|cells| Measure { cells })
}

/// Measures the text of a recording.
pub fn measure_recording(recording: &[u8]) -> Result<Measure, Refusal> {
    measure(Source::recording(recording))
}

/// Measures the join of two texts.
pub fn measure_joined(first: Part<'_>, second: Part<'_>) -> Result<Measure, Refusal> {
    measure(Source::joined(first, second))
}
