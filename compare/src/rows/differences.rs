//! What is due to an smaps text that is read as rows: what procfs-core answers, but for the differences
//! that are intended. Each of these is told from the text's lines:
//!
//! - a path that starts with /SYSV is a key where eight digits of base 16 follow, and behind these nothing
//!   or " (deleted)"; else it is a file's;
//! - a file's path keeps the white at its end;
//! - a path that starts with "[stack:" and has no last "]" is refused 8;
//! - a value that a third word takes past u64 is refused 9; procfs-core wraps round;
//! - a key of more than 32 bytes is refused 21;
//! - a good mapping, or a value of a key that its mapping has not yet, for which the tables have no cell
//!   is refused 12;
//! - 4096 bytes of a line without a byte 10 are refused 2, a line that takes the text past
//!   268435456 bytes 3.
//!
//! All other rules are procfs-core's own: it reads the text with such paths of /SYSV replaced, up to the
//! line that one of these refusals stops at. Its attributes have no order; due is the order in which
//! their keys first come, where procfs-core tells the key of each line from that line behind its
//! mapping's. It has no places; due is where the path begins in its line.

use crate::record::{Answer, Due, Refusal};
use crate::reference::{maps, number_of, past_u64};
use crate::rows::shown::{shown, Path};
use crate::text::{lines, Text};
use procfs_core::process::MemoryMaps;
use std::collections::HashSet;

const LINE: usize = 4096;
const TEXT: usize = 268_435_456;
const KEY: usize = 32;

/// What stands for a path that procfs-core does not read as we do.
const PATH: &[u8] = b"/f";

const KEY_PATH: &str = "/SYSV without a key";
const WHITE: &str = "white at the end of a path";
const TORN_STACK: &str = "[stack: without ]";
const SCALE: &str = "value past u64";
const LONG_KEY: &str = "key past 32 bytes";
const LONG_LINE: &str = "long line";
const LONG_TEXT: &str = "long text";
const FULL: &str = "more than there are cells";

pub const ALL: [&str; 8] = [
    KEY_PATH, WHITE, TORN_STACK, SCALE, LONG_KEY, LONG_LINE, LONG_TEXT, FULL,
];

/// The cells of the tables that crates/replay hands over where it reads narrow rows.
const NARROW: Cells = Cells {
    rows: 3,
    entries: 12,
};

#[derive(Clone, Copy)]
struct Cells {
    rows: usize,
    entries: usize,
}

/// What is due where the tables have cells for all.
pub fn due(text: Text) -> Result<Due, String> {
    due_in(text, None)
}

/// What is due where the tables have few cells.
pub fn narrow_due(text: Text) -> Result<Due, String> {
    due_in(text, Some(NARROW))
}

fn due_in(text: Text, cells: Option<Cells>) -> Result<Due, String> {
    let reading = Reading::of(text);
    let reference = maps(text);
    let (ours, why) = reading.answer(text, cells)?;
    let answer = match &reference {
        Ok(maps) => Some(Answer::Accepted(plain(text.bytes, maps)?)),
        Err((class, line)) => {
            let last = lines(text.bytes).nth(line.wrapping_sub(1)).unwrap_or(b"");
            number_of(*class, last).map(|number| refused(number, *line))
        }
    };
    if answer.as_ref() == Some(&ours) {
        return Ok(Due {
            ours,
            difference: None,
        });
    }
    let why = why
        .or(reading.key_path.then_some(KEY_PATH))
        .or(reading.white.then_some(WHITE))
        .ok_or("procfs-core answers otherwise, and no intended difference says why")?;
    Ok(Due {
        ours,
        difference: Some(why),
    })
}

fn refused(number: u32, line: usize) -> Answer {
    Answer::Refused(Refusal {
        number: number as usize,
        line,
        field: 0,
    })
}

fn is_attribute(line: &[u8]) -> bool {
    line.first().is_some_and(u8::is_ascii_uppercase)
}

/// The number of mappings, and each of them with the path that `path` makes of its number and its own.
/// The paths begin at `places`.
fn fields(
    text: &[u8],
    places: &[usize],
    maps: &MemoryMaps,
    path: impl Fn(usize, Path) -> Result<Path, String>,
) -> Result<String, String> {
    let keys = keys(text, maps)?;
    let mut out = maps.0.len().to_string();
    for (index, map) in maps.0.iter().enumerate() {
        let path = path(index, Path::of(&map.pathname))?;
        out.push(' ');
        out += &shown(map, &path, places[index], &keys[index]);
    }
    Ok(out)
}

/// The same as procfs-core has them.
fn plain(text: &[u8], maps: &MemoryMaps) -> Result<String, String> {
    fields(text, &places(text), maps, |_, path| Ok(path))
}

/// Where the path of each mapping line begins in the text.
fn places(text: &[u8]) -> Vec<usize> {
    let mut places = Vec::new();
    let mut end = 0;
    for line in lines(text) {
        end += line.len();
        if !is_attribute(line) {
            let line = std::str::from_utf8(line).unwrap_or("");
            let path = line.splitn(6, ' ').nth(5).unwrap_or("");
            places.push(end - path.trim_start().len());
        }
    }
    places
}

/// The keys of each mapping, in the order in which they first come.
fn keys(text: &[u8], all: &MemoryMaps) -> Result<Vec<Vec<String>>, String> {
    let mut keys: Vec<Vec<String>> = Vec::new();
    let mut opening: &[u8] = b"";
    for line in lines(text) {
        if is_attribute(line) {
            let last = keys.last_mut().ok_or("an attribute without a mapping")?;
            last.extend(key(opening, line)?.filter(|key| !last.contains(key)));
        } else {
            opening = line;
            keys.push(Vec::new());
        }
    }
    let whole = keys.len() == all.0.len()
        && keys.iter().zip(&all.0).all(|(keys, map)| {
            keys.len() == map.extension.map.len()
                && keys.iter().all(|key| map.extension.map.contains_key(key))
        });
    if whole {
        Ok(keys)
    } else {
        Err("lines alone have other keys than their mapping".to_string())
    }
}

/// The key that an attribute's line sets, behind the line of its mapping.
fn key(opening: &[u8], line: &[u8]) -> Result<Option<String>, String> {
    let two =
        maps(Text::whole(&[opening, line].concat())).map_err(|_| "a line is refused alone")?;
    let map = two.0.into_iter().next().ok_or("no mapping")?;
    Ok(map.extension.map.into_keys().next())
}

/// The first of so many lines, which are all good, that needs a cell more than there are.
fn full_line(text: &[u8], count: usize, cells: Cells) -> Result<Option<usize>, String> {
    let mut used = Cells {
        rows: 0,
        entries: 0,
    };
    let mut keys = HashSet::new();
    let mut opening: &[u8] = b"";
    for (index, line) in lines(text).take(count).enumerate() {
        if is_attribute(line) {
            let new = key(opening, line)?.is_some_and(|key| keys.insert(key));
            used.entries += usize::from(new);
        } else {
            opening = line;
            keys.clear();
            used.rows += 1;
        }
        if used.rows > cells.rows || used.entries > cells.entries {
            return Ok(Some(index + 1));
        }
    }
    Ok(None)
}

/// A mapping's path as its line has it.
struct Piece {
    /// Without white in front, up to byte 10.
    name: Vec<u8>,
    /// Whether it was replaced.
    replaced: bool,
}

/// A text up to the first line that we refuse and procfs-core does not, for it to read.
struct Reading {
    /// The text, with the paths replaced.
    bytes: Vec<u8>,
    /// Whether it breaks off behind these.
    broken: bool,
    /// The paths of its mapping lines.
    pieces: Vec<Piece>,
    /// The refusal 2, 3, 8, 9 or 21, its line, and why procfs-core does not refuse it.
    stop: Option<(u32, usize, &'static str)>,
    /// Whether a path of /SYSV was replaced.
    key_path: bool,
    /// Whether a path has white at its end.
    white: bool,
}

impl Reading {
    fn of(text: Text) -> Reading {
        let mut all = Reading {
            bytes: Vec::new(),
            broken: false,
            pieces: Vec::new(),
            stop: None,
            key_path: false,
            white: false,
        };
        let mut size = 0;
        for (index, line) in lines(text.bytes).enumerate() {
            let number = index + 1;
            size += line.len();
            if line.len() > LINE || line.len() == LINE && !line.ends_with(b"\n") {
                all.stop = Some((2, number, LONG_LINE));
                break;
            }
            if size > TEXT {
                all.stop = Some((3, number, LONG_TEXT));
                break;
            }
            let plain = match std::str::from_utf8(line) {
                Ok(plain) if line.ends_with(b"\n") || !text.broken => plain,
                _ => {
                    // procfs-core stops here too.
                    all.bytes.extend_from_slice(line);
                    break;
                }
            };
            all.stop = if is_attribute(line) {
                all.bytes.extend_from_slice(line);
                attribute_stop(plain).map(|(refusal, why)| (refusal, number, why))
            } else {
                all.push_mapping(plain).then_some((8, number, TORN_STACK))
            };
            if all.stop.is_some() {
                break;
            }
        }
        all.broken = text.broken && size == text.bytes.len() && all.stop.is_none();
        all
    }

    /// What our library has to answer to the text that this was made of, and why, if procfs-core does
    /// not answer it to this.
    fn answer(
        &self,
        text: Text,
        cells: Option<Cells>,
    ) -> Result<(Answer, Option<&'static str>), String> {
        let read = maps(Text {
            bytes: &self.bytes,
            broken: self.broken,
        });
        let stop = match &read {
            Err((class, line)) => {
                let last = lines(&self.bytes).nth(line.wrapping_sub(1)).unwrap_or(b"");
                let number = number_of(*class, last)
                    .ok_or_else(|| format!("{} on line {line}", class.name()))?;
                Some((number, *line, None))
            }
            Ok(_) => self
                .stop
                .map(|(number, line, why)| (number, line, Some(why))),
        };
        if let Some(cells) = cells {
            let good = stop.map_or(usize::MAX, |(_, line, _)| line - 1);
            if let Some(line) = full_line(&self.bytes, good, cells)? {
                return Ok((refused(12, line), Some(FULL)));
            }
        }
        match (stop, read) {
            (Some((number, line, why)), _) => Ok((refused(number, line), why)),
            (None, Ok(maps)) => {
                let fields = self.fields(&places(text.bytes), &maps)?;
                Ok((Answer::Accepted(fields), None))
            }
            (None, Err(_)) => Err("a refusal without a number".to_string()),
        }
    }

    /// Answers whether the line's path is a stack's without its bracket.
    fn push_mapping(&mut self, line: &str) -> bool {
        let path = line.splitn(6, ' ').nth(5).unwrap_or("");
        let name = path.trim();
        let torn = name.starts_with("[stack:") && !name.ends_with(']');
        let keyless = name.starts_with("/SYSV") && !has_key(name);
        if torn || keyless {
            let head = &line[..line.len() - path.len()];
            self.bytes.extend_from_slice(head.as_bytes());
            self.bytes.extend_from_slice(PATH);
            if line.ends_with('\n') {
                self.bytes.push(b'\n');
            }
        } else {
            self.bytes.extend_from_slice(line.as_bytes());
        }
        let start = path.trim_start();
        let kept = start.strip_suffix('\n').unwrap_or(start);
        self.key_path |= keyless;
        self.white |= kept != name;
        self.pieces.push(Piece {
            name: kept.as_bytes().to_vec(),
            replaced: keyless,
        });
        torn
    }

    fn fields(&self, places: &[usize], maps: &MemoryMaps) -> Result<String, String> {
        fields(&self.bytes, places, maps, |index, path| {
            let piece = &self.pieces[index];
            if path.kind != 0 {
                return Ok(path);
            }
            let same = std::str::from_utf8(&piece.name)
                .is_ok_and(|name| name.trim_end().as_bytes() == path.name);
            if same || piece.replaced {
                Ok(Path::file(&piece.name))
            } else {
                Err("a path is not its piece without white".to_string())
            }
        })
    }
}

/// Whether a name that begins with /SYSV has a key.
fn has_key(name: &str) -> bool {
    let rest = &name.as_bytes()[5..];
    rest.len() >= 8
        && rest[..8].iter().all(u8::is_ascii_hexdigit)
        && matches!(&rest[8..], b"" | b" (deleted)")
}

/// The refusal of an attribute's line that procfs-core accepts.
fn attribute_stop(line: &str) -> Option<(u32, &'static str)> {
    if past_u64(line) {
        return Some((9, SCALE));
    }
    let mut words = line.split_ascii_whitespace();
    let key = words.next()?.trim_end_matches(':');
    words.next()?;
    (!line.starts_with("VmFlags") && key.len() > KEY).then_some((21, LONG_KEY))
}
