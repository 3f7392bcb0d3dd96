//! An answer of this repository's library.

use std::fmt;

#[derive(Clone, Debug, PartialEq, Eq)]
pub enum Answer {
    Accepted { mappings: u64, totals: [u64; 3] },
    Refused { number: u32, line: u64 },
}

impl fmt::Display for Answer {
    fn fmt(&self, f: &mut fmt::Formatter<'_>) -> fmt::Result {
        match self {
            Answer::Accepted {
                mappings,
                totals: [rss, pss, swappss],
            } => {
                write!(
                    f,
                    "mappings {mappings} rss {rss} pss {pss} swappss {swappss}"
                )
            }
            Answer::Refused { number, line } => write!(f, "refused {number} line {line}"),
        }
    }
}
