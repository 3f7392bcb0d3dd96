//! The program crates/replay, which answers the texts of a list.

use std::io;
use std::path::{Path, PathBuf};
use std::process::Command;

pub struct Replay {
    pub program: PathBuf,
    /// Where its lists stand while it reads them.
    pub folder: PathBuf,
}

/// A line of a list that is not answered as it expects.
pub struct Differing {
    /// Its place in the list, from 0.
    pub place: usize,
    pub answer: String,
}

impl Replay {
    pub fn list(&self) -> PathBuf {
        self.folder.join("list")
    }

    /// What differs in the list, which has so many lines.
    pub fn differing(&self, reading: &str, lines: usize) -> io::Result<Vec<Differing>> {
        let list = self.list();
        let output = Command::new(&self.program)
            .arg(reading)
            .arg(&list)
            .output()?;
        let told = String::from_utf8(output.stdout).map_err(io::Error::other)?;
        let (pairs, end) = match told.trim_end().rsplit_once('\n') {
            Some((pairs, end)) => (pairs, end),
            None => ("", told.trim_end()),
        };
        let pairs: Vec<&str> = pairs.lines().collect();
        let count = pairs.len() / 2;
        let due = format!("{}: {lines} texts, {count} differ", list.display());
        if !output.status.success() || end != due {
            let why = format!("replay ends with \"{end}\" where \"{due}\" is due");
            return Err(io::Error::other(why));
        }
        if count == 0 {
            return Ok(Vec::new());
        }
        places(&list, pairs.chunks_exact(2))
    }

    /// Whether the library answers the one line of a list otherwise than it expects.
    pub fn differs(&self, reading: &str, line: &str) -> io::Result<bool> {
        std::fs::write(self.list(), format!("{line}\n"))?;
        Ok(!self.differing(reading, 1)?.is_empty())
    }
}

/// The places of the lines that stand first in the pairs, in the order of the list.
fn places<'a>(
    list: &Path,
    pairs: impl Iterator<Item = &'a [&'a str]>,
) -> io::Result<Vec<Differing>> {
    let text = std::fs::read_to_string(list)?;
    let mut lines = text.lines().enumerate();
    pairs
        .map(|pair| {
            let found = lines.find(|(_, line)| *line == pair[0]);
            let (place, _) = found.ok_or(io::Error::other("replay tells of another line"))?;
            Ok(Differing {
                place,
                answer: pair[1].to_string(),
            })
        })
        .collect()
}
