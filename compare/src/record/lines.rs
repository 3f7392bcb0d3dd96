//! The rules on lines that come before those of a reading.

use crate::record::Refusal;
use crate::text::{lines, Text};

const LINE: usize = 4096;
const TEXT: usize = 268_435_456;

/// A text up to the line where its reading ends at the latest.
pub struct Head<'a> {
    /// Without that line where it is refused 2 or 3; with it where it is not UTF-8.
    pub text: Text<'a>,
    /// The refusal 2 or 3 of the next line.
    pub stop: Option<Refusal>,
}

impl Head<'_> {
    pub fn of(text: Text<'_>) -> Head<'_> {
        let mut size = 0;
        for (taken, line) in lines(text.bytes).enumerate() {
            let end = size + line.len();
            let stop = if line.len() > LINE || line.len() == LINE && !line.ends_with(b"\n") {
                2
            } else if end > TEXT {
                3
            } else if std::str::from_utf8(line).is_err() {
                return Head {
                    text: Text::whole(&text.bytes[..end]),
                    stop: None,
                };
            } else {
                size = end;
                continue;
            };
            return Head {
                text: Text::whole(&text.bytes[..size]),
                stop: Some(Refusal {
                    number: stop,
                    line: taken + 1,
                    field: 0,
                }),
            };
        }
        Head { text, stop: None }
    }
}
