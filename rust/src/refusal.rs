//! What a refused call answers.

use crate::boundary;
use std::error::Error;
use std::fmt::{Display, Formatter, Result};

/// Why a call was refused; docs/REFUSALS.md has the table.
#[derive(Clone, Copy, PartialEq, Eq, Debug)]
pub struct Refusal {
    pub(crate) number: u32,
    pub(crate) line: u32,
    pub(crate) field: u32,
}

impl Refusal {
    /// The number of the reason, 1 to 22.
    pub fn number(&self) -> u32 {
        self.number
    }

    /// The line of the text, from 1 on, or 0 where there is none.
    pub fn line(&self) -> u32 {
        self.line
    }

    /// The field of the text, from 1 on, or 0 where there is none.
    pub fn field(&self) -> u32 {
        self.field
    }

    /// The word of the reason, as `over`; the library has them.
    pub fn word(&self) -> String {
        boundary::word(self.number)
    }
}

/// As `refused 18 over`, with the line and the field behind it where there are any.
impl Display for Refusal {
    fn fmt(&self, f: &mut Formatter<'_>) -> Result {
        write!(f, "refused {} {}", self.number, self.word())?;
        if self.line != 0 {
            write!(f, " line {}", self.line)?;
        }
        if self.field != 0 {
            write!(f, " field {}", self.field)?;
        }
        Ok(())
    }
}

impl Error for Refusal {}
