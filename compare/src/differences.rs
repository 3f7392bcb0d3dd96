//! What this repository's library has to answer to a text: what procfs-core answers, but for the
//! differences that are intended. Each of these is told from the text's lines:
//!
//! - any path that starts with /SYSV is accepted; procfs-core refuses some, and panics on others;
//! - a path that starts with "[stack:" and has no last "]" is refused 8;
//! - a value that a third word takes past u64 is refused 9; procfs-core wraps round;
//! - a total above 2^56, as a mapping closes, is refused 10;
//! - 4096 bytes of a line without a byte 10 are refused 2, a line that takes the text past
//!   268435456 bytes 3.
//!
//! All other rules are procfs-core's own: it reads the text with such paths replaced, up to the line
//! that one of these refusals stops at.

use crate::answer::Answer;
use crate::reference::{self, number_of, past_u64, Mapping};
use crate::text::{lines, Text};
use std::fmt;

const LINE: usize = 4096;
const TEXT: usize = 268_435_456;
const TOTAL: u128 = 1 << 56;

/// What stands for a path that procfs-core does not read as we do.
const PATH: &[u8] = b"/f";

#[derive(Clone, Copy, Debug, PartialEq, Eq)]
pub enum Difference {
    KeyPath,
    TornStack,
    Scale,
    Heavy,
    LongLine,
    LongText,
}

impl Difference {
    pub const ALL: [Difference; 6] = [
        Difference::KeyPath,
        Difference::TornStack,
        Difference::Scale,
        Difference::Heavy,
        Difference::LongLine,
        Difference::LongText,
    ];

    pub fn name(self) -> &'static str {
        match self {
            Difference::KeyPath => "/SYSV without a key",
            Difference::TornStack => "[stack: without ]",
            Difference::Scale => "value past u64",
            Difference::Heavy => "total past 2^56",
            Difference::LongLine => "long line",
            Difference::LongText => "long text",
        }
    }
}

/// What a text has coming to it.
pub struct Due {
    /// What procfs-core answers.
    pub reference: reference::Answer,
    /// What our library has to answer. None: procfs-core's answer has no counterpart.
    pub ours: Option<Answer>,
    /// The difference that sets the two apart. None: they agree, or `ours` is None.
    pub difference: Option<Difference>,
}

impl fmt::Display for Due {
    fn fmt(&self, f: &mut fmt::Formatter<'_>) -> fmt::Result {
        match &self.reference {
            reference::Answer::Accepted(maps) => {
                let [rss, pss, swappss] = reference::totals(maps);
                write!(
                    f,
                    "mappings {} rss {rss} pss {pss} swappss {swappss}",
                    maps.len()
                )?;
            }
            reference::Answer::Refused { class, line } => {
                write!(f, "{} line {line}", class.name())?
            }
        }
        match (&self.ours, self.difference) {
            (Some(ours), Some(difference)) => {
                write!(f, "; by \"{}\" due is {ours}", difference.name())
            }
            (Some(_), None) => Ok(()),
            (None, _) => write!(f, "; without a counterpart"),
        }
    }
}

pub fn due(text: Text) -> Due {
    let reference = reference::read(text);
    let reading = Reading::of(text);
    let read = if reading.text() == text {
        reference.clone()
    } else {
        reference::read(reading.text())
    };
    let Some(ours) = reading.answer(read) else {
        return Due {
            reference,
            ours: None,
            difference: None,
        };
    };
    if agree(text.bytes, &reference, &ours) {
        return Due {
            reference,
            ours: Some(ours),
            difference: None,
        };
    }
    let difference = match ours {
        Answer::Refused { number: 2, .. } => Some(Difference::LongLine),
        Answer::Refused { number: 3, .. } => Some(Difference::LongText),
        Answer::Refused { number: 8, .. } => Some(Difference::TornStack),
        Answer::Refused { number: 9, .. } => Some(Difference::Scale),
        Answer::Refused { number: 10, .. } => Some(Difference::Heavy),
        _ if reading.key_path => Some(Difference::KeyPath),
        _ => None,
    };
    let ours = difference.map(|_| ours);
    Due {
        reference,
        ours,
        difference,
    }
}

/// Whether the two answers are the same, as far as procfs-core tells.
fn agree(text: &[u8], reference: &reference::Answer, ours: &Answer) -> bool {
    match (reference, ours) {
        (reference::Answer::Accepted(maps), Answer::Accepted { mappings, totals }) => {
            maps.len() as u64 == *mappings && reference::totals(maps) == totals.map(u128::from)
        }
        (reference::Answer::Refused { class, line }, Answer::Refused { number, line: ours }) => {
            let last = lines(text).nth(line.wrapping_sub(1)).unwrap_or(b"");
            number_of(*class, last) == Some(*number) && *line as u64 == *ours
        }
        _ => false,
    }
}

/// A text up to the first line that we refuse and procfs-core does not, for it to read.
struct Reading {
    /// The text, with the paths replaced.
    bytes: Vec<u8>,
    /// Whether it breaks off behind these.
    broken: bool,
    /// Where its lines begin, and where the last ends.
    starts: Vec<usize>,
    /// The lines that open a mapping, from 1.
    opening: Vec<usize>,
    /// The refusal 2, 3, 8 or 9 and its line.
    stop: Option<(u32, usize)>,
    /// Whether a path of /SYSV was replaced.
    key_path: bool,
}

impl Reading {
    fn of(text: Text) -> Reading {
        let mut all = Reading {
            bytes: Vec::new(),
            broken: false,
            starts: vec![0],
            opening: Vec::new(),
            stop: None,
            key_path: false,
        };
        let mut length = 0;
        for (index, line) in lines(text.bytes).enumerate() {
            let number = index + 1;
            length += line.len();
            if line.len() > LINE || line.len() == LINE && !line.ends_with(b"\n") {
                all.stop = Some((2, number));
                break;
            }
            if length > TEXT {
                all.stop = Some((3, number));
                break;
            }
            if text.broken && !line.ends_with(b"\n") {
                // procfs-core does not get it whole.
                all.push(line);
                break;
            }
            let Ok(plain) = std::str::from_utf8(line) else {
                // procfs-core stops here too.
                all.push(line);
                break;
            };
            if line.first().is_some_and(u8::is_ascii_uppercase) {
                all.push(line);
                if past_u64(plain) {
                    all.stop = Some((9, number));
                    break;
                }
                continue;
            }
            all.opening.push(number);
            let path = plain.splitn(6, ' ').nth(5);
            match path.map(str::trim) {
                Some(trimmed) if trimmed.starts_with("[stack:") && !trimmed.ends_with(']') => {
                    all.push_without(line, path.map_or(0, str::len));
                    all.stop = Some((8, number));
                    break;
                }
                Some(trimmed) if trimmed.starts_with("/SYSV") => {
                    all.push_without(line, path.map_or(0, str::len));
                    all.key_path = true;
                }
                _ => all.push(line),
            }
        }
        all.broken = text.broken && length == text.bytes.len() && all.stop.is_none();
        all
    }

    fn text(&self) -> Text<'_> {
        Text {
            bytes: &self.bytes,
            broken: self.broken,
        }
    }

    fn push(&mut self, line: &[u8]) {
        self.bytes.extend_from_slice(line);
        self.starts.push(self.bytes.len());
    }

    /// Pushes the line with another path in place of its last bytes.
    fn push_without(&mut self, line: &[u8], path: usize) {
        self.bytes.extend_from_slice(&line[..line.len() - path]);
        self.bytes.extend_from_slice(PATH);
        if line.ends_with(b"\n") {
            self.bytes.push(b'\n');
        }
        self.starts.push(self.bytes.len());
    }

    /// What our library has to answer, given procfs-core's answer to this text.
    fn answer(&self, read: reference::Answer) -> Option<Answer> {
        let lines = self.starts.len() - 1;
        // The line refused, by procfs-core or by a rule of ours; the mappings before it.
        let (refusal, mappings) = match (read, self.stop) {
            (reference::Answer::Refused { class, line }, _) => {
                let number = number_of(class, self.line(line))?;
                (Some((number, line)), self.before(line)?)
            }
            (reference::Answer::Accepted(_), Some((number, line))) if line <= lines => {
                (Some((number, line)), self.before(line)?)
            }
            (reference::Answer::Accepted(mappings), stop) => (stop, mappings),
        };
        let closed = match refusal {
            Some((_, line)) if !self.opening.contains(&line) => mappings.len().saturating_sub(1),
            _ => mappings.len(),
        };
        let mut sums = [0u128; 3];
        for (index, mapping) in mappings[..closed].iter().enumerate() {
            for (sum, value) in sums.iter_mut().zip(mapping) {
                *sum += u128::from(*value);
            }
            if sums.iter().any(|sum| *sum > TOTAL) {
                // The next mapping's line closes this one, or the text's end does.
                let line = self.opening.get(index + 1).copied().unwrap_or(lines);
                return Some(Answer::Refused {
                    number: 10,
                    line: line as u64,
                });
            }
        }
        Some(match refusal {
            Some((number, line)) => Answer::Refused {
                number,
                line: line as u64,
            },
            None => Answer::Accepted {
                mappings: mappings.len() as u64,
                totals: reference::totals(&mappings).map(|total| total as u64),
            },
        })
    }

    /// A line, or nothing behind the last.
    fn line(&self, line: usize) -> &[u8] {
        let end = self.starts.get(line).copied();
        &self.bytes[self.starts[line - 1]..end.unwrap_or(self.bytes.len())]
    }

    /// The mappings of the lines before a line, which procfs-core accepts.
    fn before(&self, line: usize) -> Option<Vec<Mapping>> {
        match reference::read(Text::whole(&self.bytes[..self.starts[line - 1]])) {
            reference::Answer::Accepted(mappings) => Some(mappings),
            reference::Answer::Refused { .. } => None,
        }
    }
}
