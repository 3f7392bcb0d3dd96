//! Readings, and what is due to their texts; what status and limits, which answer a record of numbered
//! fields, have in common.

pub mod lines;
pub mod reference;
pub mod source;

use crate::damage::line_of;
use crate::dice::Dice;
use crate::text::Text;
use std::fmt;

/// A reading: its texts, and what they have coming to them.
pub struct Reading {
    /// The names of its texts under /proc/PID.
    pub names: &'static [&'static str],
    /// The number of fields.
    pub fields: usize,
    /// Those at which no refusal can come, by the rules.
    pub safe_fields: &'static [usize],
    /// A list of single cases.
    pub listed: fn() -> Vec<Vec<u8>>,
    pub generated: fn(&mut Dice) -> Vec<u8>,
    /// What is due to a text, or why that can't be told.
    pub due: fn(Text) -> Result<Due, String>,
    /// The names of the intended differences.
    pub differences: Vec<&'static str>,
    /// The numbers of its refusals, by the rules.
    pub refusals: &'static [usize],
    /// What the longest text that is read is made of. None: texts have no lines, no cap and no ending.
    pub block: Option<Vec<u8>>,
    /// An answer as lists have it.
    pub written: fn(&Answer) -> String,
}

/// A sixteenth of a mebibyte that begins so and has long lines behind it, each of which begins so.
pub fn block(start: &str, line: &str) -> Vec<u8> {
    let mut block = start.as_bytes().to_vec();
    while block.len() < BLOCK {
        let length = 4096.min(BLOCK - block.len());
        block.extend_from_slice(&line_of(length - 1, line, "\n"));
    }
    block
}

const BLOCK: usize = 1 << 16;

/// What a text has coming to it.
pub struct Due {
    /// What our library has to answer.
    pub ours: Answer,
    /// The intended difference that sets this apart from procfs-core's answer. None: they agree.
    pub difference: Option<&'static str>,
}

#[derive(Clone, Debug, PartialEq, Eq)]
pub enum Answer {
    /// The fields, one after the other, with spaces between.
    Accepted(String),
    Refused(Refusal),
}

#[derive(Clone, Copy, Debug, PartialEq, Eq)]
pub struct Refusal {
    pub number: usize,
    pub line: usize,
    pub field: usize,
}

impl fmt::Display for Answer {
    fn fmt(&self, f: &mut fmt::Formatter<'_>) -> fmt::Result {
        match self {
            Answer::Accepted(fields) => write!(f, "ok {fields}"),
            Answer::Refused(Refusal {
                number,
                line,
                field,
            }) => write!(f, "refused {number} {line} {field}"),
        }
    }
}
