//! A text with its ending, and how procfs-core is handed it.

use crate::escape::escaped;
use procfs_core::{FromBufRead, ProcResult};
use std::hash::{DefaultHasher, Hash, Hasher};
use std::io::{self, BufRead, Read};
use std::panic::{catch_unwind, AssertUnwindSafe};

/// The bytes of a text, and whether the reading breaks off behind them.
#[derive(Clone, Copy, PartialEq, Eq)]
pub struct Text<'a> {
    pub bytes: &'a [u8],
    pub broken: bool,
}

impl<'a> Text<'a> {
    pub fn whole(bytes: &'a [u8]) -> Text<'a> {
        Text {
            bytes,
            broken: false,
        }
    }

    /// What procfs-core answers to it.
    pub fn read<T: FromBufRead>(self) -> Outcome<T> {
        let mut reader = Reader {
            rest: self.bytes,
            broken: self.broken,
            broke_off: false,
        };
        let result = catch_unwind(AssertUnwindSafe(|| T::from_buf_read(&mut reader)));
        let taken = &self.bytes[..self.bytes.len() - reader.rest.len()];
        let behind = taken.is_empty() || taken.ends_with(b"\n");
        Outcome {
            result: result.ok(),
            line: lines(taken).count() + usize::from(reader.broke_off && behind),
            broke_off: reader.broke_off,
        }
    }
}

/// The lines, each with its byte 10.
pub fn lines(bytes: &[u8]) -> impl Iterator<Item = &[u8]> {
    bytes.split_inclusive(|byte| *byte == b'\n')
}

/// What procfs-core answers to a text.
pub struct Outcome<T> {
    /// None where it panics.
    pub result: Option<ProcResult<T>>,
    /// The last line that it asked for, from 1. Where the reading broke off, that is the line that did not
    /// come whole.
    pub line: usize,
    /// Whether the reading broke off.
    pub broke_off: bool,
}

/// Hands out the bytes, and then an error where the text is broken.
struct Reader<'a> {
    rest: &'a [u8],
    broken: bool,
    broke_off: bool,
}

impl BufRead for Reader<'_> {
    fn fill_buf(&mut self) -> io::Result<&[u8]> {
        if self.rest.is_empty() && self.broken {
            self.broke_off = true;
            return Err(io::Error::other("the process is gone"));
        }
        Ok(self.rest)
    }

    fn consume(&mut self, amount: usize) {
        self.rest = &self.rest[amount..];
    }
}

impl Read for Reader<'_> {
    fn read(&mut self, buffer: &mut [u8]) -> io::Result<usize> {
        let size = self.fill_buf()?.read(buffer)?;
        self.consume(size);
        Ok(size)
    }
}

/// A text of its own, and how a list has it.
pub struct Case {
    bytes: Vec<u8>,
    broken: bool,
    /// The bytes that were doubled, and how often.
    doubled: (usize, u32),
}

impl Case {
    pub fn whole(bytes: Vec<u8>) -> Case {
        Case {
            bytes,
            broken: false,
            doubled: (0, 0),
        }
    }

    pub fn broken(bytes: Vec<u8>) -> Case {
        Case {
            broken: true,
            ..Case::whole(bytes)
        }
    }

    /// The block doubled so many times, and then the end.
    pub fn doubled(block: &[u8], times: u32, end: &[u8], broken: bool) -> Case {
        let mut bytes = block.repeat(1 << times);
        bytes.extend_from_slice(end);
        Case {
            bytes,
            broken,
            doubled: (block.len(), times),
        }
    }

    /// Other bytes with the same ending.
    pub fn with(&self, bytes: Vec<u8>) -> Case {
        Case {
            broken: self.broken,
            ..Case::whole(bytes)
        }
    }

    pub fn text(&self) -> Text<'_> {
        Text {
            bytes: &self.bytes,
            broken: self.broken,
        }
    }

    pub fn hash(&self) -> u64 {
        let mut hasher = DefaultHasher::new();
        self.bytes.hash(&mut hasher);
        self.broken.hash(&mut hasher);
        hasher.finish()
    }

    /// As the lists of crates/replay have it: `\+` is all that stands before it once more, and `\!` at the
    /// end says that the text breaks off there.
    pub fn written(&self) -> String {
        let (block, times) = self.doubled;
        let mut written = escaped(&self.bytes[..block]);
        written += &"\\+".repeat(times as usize);
        written += &escaped(&self.bytes[block << times..]);
        if self.broken {
            written += "\\!";
        }
        written
    }

    /// What such a text of a list stands for. None: it is doubled, or has another form.
    pub fn unwritten(written: &str) -> Option<Case> {
        let mut bytes = Vec::new();
        let mut rest = written.bytes();
        while let Some(byte) = rest.next() {
            if byte != b'\\' {
                bytes.push(byte);
                continue;
            }
            match rest.next()? {
                b'\\' => bytes.push(b'\\'),
                b'x' => {
                    let digits = [rest.next()?, rest.next()?].map(char::from);
                    let digits = String::from_iter(digits);
                    bytes.push(u8::from_str_radix(&digits, 16).ok()?);
                }
                b'!' => return Some(Case::broken(bytes)),
                _ => return None,
            }
        }
        Some(Case::whole(bytes))
    }
}
