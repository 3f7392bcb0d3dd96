//! The answer of procfs-core to a text.

use crate::text::Text;
use procfs_core::process::MemoryMaps;
use procfs_core::ProcError;

/// Rss, Pss and SwapPss of one mapping, 0 where absent.
pub type Mapping = [u64; 3];

pub const KEYS: [&str; 3] = ["Rss", "Pss", "SwapPss"];

/// Why procfs-core refused a text, as far as it tells.
#[derive(Clone, Copy, Debug, PartialEq, Eq)]
pub enum Class {
    /// `Incomplete` where the reading broke off.
    Broken,
    /// `Incomplete`: a line that is not UTF-8, or an attribute before any mapping.
    Incomplete,
    /// `Other`: the second word of an attribute is no number.
    Other,
    /// `InternalError` of a piece that is missing.
    Short,
    /// `InternalError` of a bad number.
    Figure,
    /// `Other` of a bad number after /SYSV.
    Key,
    /// A panic.
    Panic,
    /// None of these: nothing of the reader answers so.
    Unknown,
}

impl Class {
    pub fn name(self) -> &'static str {
        match self {
            Class::Broken => "broken",
            Class::Incomplete => "incomplete",
            Class::Other => "other",
            Class::Short => "short",
            Class::Figure => "figure",
            Class::Key => "key",
            Class::Panic => "panic",
            Class::Unknown => "unknown",
        }
    }
}

#[derive(Clone, Debug, PartialEq, Eq)]
pub enum Answer {
    Accepted(Vec<Mapping>),
    /// The line, from 1, is the last one that was read.
    Refused {
        class: Class,
        line: usize,
    },
}

/// The sums over the mappings.
pub fn totals(mappings: &[Mapping]) -> [u128; 3] {
    let mut sums = [0u128; 3];
    for mapping in mappings {
        for (sum, value) in sums.iter_mut().zip(mapping) {
            *sum += u128::from(*value);
        }
    }
    sums
}

/// What procfs-core answers to a text.
pub fn read(text: Text) -> Answer {
    match maps(text) {
        Ok(maps) => Answer::Accepted(
            maps.iter()
                .map(|map| KEYS.map(|key| map.extension.map.get(key).copied().unwrap_or(0)))
                .collect(),
        ),
        Err((class, line)) => Answer::Refused { class, line },
    }
}

/// The mappings that procfs-core reads in a text, or why it refuses the text and the last line that it
/// asked for, from 1.
pub fn maps(text: Text) -> Result<MemoryMaps, (Class, usize)> {
    let outcome = text.read::<MemoryMaps>();
    let class = match outcome.result {
        Some(Ok(maps)) => return Ok(maps),
        Some(Err(ProcError::Incomplete(None))) if outcome.broke_off => Class::Broken,
        Some(Err(error)) => class(&error),
        None => Class::Panic,
    };
    Err((class, outcome.line))
}

/// Our number for procfs-core's refusal of a line.
pub fn number_of(class: Class, line: &[u8]) -> Option<u32> {
    match class {
        Class::Broken => Some(1),
        Class::Incomplete if std::str::from_utf8(line).is_err() => Some(1),
        Class::Incomplete => Some(4),
        Class::Short => Some(5),
        Class::Figure => Some(6),
        Class::Other => Some(7),
        Class::Key | Class::Panic | Class::Unknown => None,
    }
}

/// Whether a third word takes the attribute's value past u64, where procfs-core wraps round.
pub fn past_u64(line: &str) -> bool {
    if line.starts_with("VmFlags") {
        return false;
    }
    let mut words = line.split_ascii_whitespace().skip(1);
    match (words.next().map(str::parse::<u64>), words.next()) {
        (Some(Ok(value)), Some(_)) => value.checked_mul(1024).is_none(),
        _ => false,
    }
}

fn class(error: &ProcError) -> Class {
    match error {
        ProcError::Incomplete(None) => Class::Incomplete,
        ProcError::Other(text) if text.starts_with("Value in ") => Class::Other,
        ProcError::Other(text) if text.starts_with("ParseIntError: ") => Class::Key,
        ProcError::InternalError(inner) if inner.msg == "Internal Unwrap Error: NoneError" => {
            Class::Short
        }
        ProcError::InternalError(inner) if NUMBER.iter().any(|end| inner.msg.ends_with(end)) => {
            Class::Figure
        }
        _ => Class::Unknown,
    }
}

/// How the text of a `ParseIntError` ends.
const NUMBER: [&str; 4] = [
    "cannot parse integer from empty string",
    "invalid digit found in string",
    "number too large to fit in target type",
    "number too small to fit in target type",
];
