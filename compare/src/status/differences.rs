//! What this repository's library has to answer to a status text: what procfs-core answers, but for
//! the differences that are intended:
//!
//! - Name's value is all after the first colon; procfs-core's ends at the second;
//! - " kB" is dropped at the end of a value, once; procfs-core drops every one, wherever it stands;
//! - a list has room for so many items, and the next good one is refused 12;
//! - 4096 bytes of a line without a byte 10 are refused 2, a line that takes the text past
//!   268435456 bytes 3.
//!
//! All other rules are procfs-core's own: it reads the text with the values of such lines replaced.

use crate::record::lines::Head;
use crate::record::reference::{read, with_good};
use crate::record::{Answer, Due, Refusal};
use crate::status::names::{find, Form, NAMES};
use crate::status::reference::fields;
use crate::text::{lines, Text};
use procfs_core::process::Status;

#[derive(Clone, Copy, Debug, PartialEq, Eq)]
pub enum Difference {
    NameColon,
    InnerKilo,
    FullGroups,
    FullPids,
    FullWords,
    FullRanges,
    LongLine,
    LongText,
}

impl Difference {
    pub const ALL: [Difference; 8] = [
        Difference::NameColon,
        Difference::InnerKilo,
        Difference::FullGroups,
        Difference::FullPids,
        Difference::FullWords,
        Difference::FullRanges,
        Difference::LongLine,
        Difference::LongText,
    ];

    pub fn name(self) -> &'static str {
        match self {
            Difference::NameColon => "colon in Name",
            Difference::InnerKilo => "kB inside a value",
            Difference::FullGroups => "groups past 128",
            Difference::FullPids => "pids past 32",
            Difference::FullWords => "words past 256",
            Difference::FullRanges => "ranges past 128",
            Difference::LongLine => "long line",
            Difference::LongText => "long text",
        }
    }
}

pub fn due(text: Text) -> Result<Due, String> {
    let plain = read::<Status>(text)?;
    let reference = match &plain {
        Ok(status) => Answer::Accepted(fields(status)),
        Err(refusal) => Answer::Refused(*refusal),
    };
    let head = Head::of(text);
    let adjusted = Adjusted::of(head.text);
    let result = if adjusted.text() == text {
        plain
    } else {
        read(adjusted.text())?
    };
    let ours = match (result, head.stop) {
        (Err(refusal), _) if refusal.field == 0 => Answer::Refused(refusal),
        (_, Some(stop)) => Answer::Refused(stop),
        (result, None) => adjusted.closed(result)?,
    };
    if reference == ours {
        return Ok(Due {
            ours,
            difference: None,
        });
    }
    match adjusted.difference(&reference, &ours) {
        Some(difference) => Ok(Due {
            ours,
            difference: Some(difference.name()),
        }),
        None => Err(format!("{reference}, but due is {ours}")),
    }
}

/// A text that procfs-core reads as our library reads the one that it was made from, but for the room
/// of lists.
struct Adjusted {
    bytes: Vec<u8>,
    /// Whether it breaks off behind these.
    broken: bool,
    /// What stands for colons behind the first one of a Name.
    colon: char,
    /// Whether such a colon was replaced.
    name_colon: bool,
    /// Whether a " kB" that our library keeps was replaced.
    inner_kilo: bool,
}

impl Adjusted {
    fn of(text: Text) -> Adjusted {
        let whole = String::from_utf8_lossy(text.bytes);
        let colon = ('\u{e000}'..).find(|each| !whole.contains(*each));
        let mut all = Adjusted {
            bytes: Vec::new(),
            broken: text.broken,
            colon: colon.expect("a text that lacks a character"),
            name_colon: false,
            inner_kilo: false,
        };
        for line in lines(text.bytes) {
            // One that does not come whole stays as it is.
            let lost = text.broken && !line.ends_with(b"\n");
            let replaced = std::str::from_utf8(line)
                .ok()
                .filter(|_| !lost)
                .and_then(|line| all.replaced(line));
            match replaced {
                Some(line) => all.bytes.extend_from_slice(line.as_bytes()),
                None => all.bytes.extend_from_slice(line),
            }
        }
        all
    }

    fn text(&self) -> Text<'_> {
        Text {
            bytes: &self.bytes,
            broken: self.broken,
        }
    }

    /// What stands for a line. None: the line itself.
    fn replaced(&mut self, line: &str) -> Option<String> {
        let (key, rest) = line.split_once(':')?;
        let name = find(key)?;
        if name.field == 1 {
            if !rest.contains(':') {
                return None;
            }
            self.name_colon = true;
            return Some(format!(
                "{key}:{}",
                rest.replace(':', &self.colon.to_string())
            ));
        }
        let value = rest.split(':').next().unwrap_or("").trim();
        let value = match (name.form, name.form.room()) {
            (Form::Kilo, _) => {
                let (start, end) = match value.strip_suffix(" kB") {
                    Some(start) => (start, " kB"),
                    None => (value, ""),
                };
                if !start.contains(" kB") {
                    return None;
                }
                // It is no number with one, and with a question mark neither.
                self.inner_kilo = true;
                format!("{}{end}", start.replace(" kB", "?"))
            }
            // No item behind the first one that there is no room for is read.
            (Form::Groups | Form::Pids, Some(room)) => {
                let items: Vec<&str> = value.split_whitespace().collect();
                items.get(..=room)?.join(" ")
            }
            (_, Some(room)) => {
                let mut items: Vec<&str> = value.split(',').collect();
                let items = items.get_mut(..=room)?;
                // The last one kept is an inner one where there are more, with white that is not
                // trimmed off.
                match items.last_mut() {
                    Some(last) if *last != last.trim_end() => *last = "?",
                    _ => {}
                }
                items.join(",")
            }
            _ => return None,
        };
        Some(format!("{key}:{value}\n"))
    }

    /// What our library has to answer as the text is closed, given procfs-core's answer to this one.
    fn closed(&self, result: Result<Status, Refusal>) -> Result<Answer, String> {
        let (mut status, refusal) = match result {
            Ok(status) => (status, None),
            // The lists before the field refused are seen with good lines for it and the later ones.
            Err(refusal) => {
                let name = NAMES.partition_point(|name| name.field <= refusal.field) - 1;
                let text = with_good::<Status>(&self.bytes, |field| field >= NAMES[name].field);
                match read(Text::whole(&text))? {
                    Ok(status) => (status, Some(refusal)),
                    Err(later) => return Err(format!("{refusal:?}, then {later:?}")),
                }
            }
        };
        let full = NAMES
            .iter()
            .filter(|name| refusal.is_none_or(|refusal| name.field < refusal.field))
            .find(|name| {
                let room = name.form.room();
                room.is_some_and(|room| length(&status, name.field) > room)
            });
        let full = full.map(|name| Refusal {
            number: 12,
            line: lines(&self.bytes).count(),
            field: name.field,
        });
        Ok(match full.or(refusal) {
            Some(refusal) => Answer::Refused(refusal),
            None => {
                status.name = status.name.replace(self.colon, ":");
                Answer::Accepted(fields(&status))
            }
        })
    }

    /// What sets our answer apart from procfs-core's.
    fn difference(&self, reference: &Answer, ours: &Answer) -> Option<Difference> {
        let Answer::Refused(refusal) = ours else {
            let both = matches!(reference, Answer::Accepted(_));
            return (both && self.name_colon).then_some(Difference::NameColon);
        };
        let name = NAMES.iter().rfind(|name| name.field <= refusal.field);
        match (refusal.number, name.map(|name| name.form)) {
            (2, _) => Some(Difference::LongLine),
            (3, _) => Some(Difference::LongText),
            (6, Some(Form::Kilo)) if self.inner_kilo => Some(Difference::InnerKilo),
            (12, Some(Form::Groups)) => Some(Difference::FullGroups),
            (12, Some(Form::Pids)) => Some(Difference::FullPids),
            (12, Some(Form::Words)) => Some(Difference::FullWords),
            (12, Some(Form::Ranges)) => Some(Difference::FullRanges),
            _ => None,
        }
    }
}

/// The items of a list.
fn length(status: &Status, field: usize) -> usize {
    let ranges = |list: &Option<Vec<(u32, u32)>>| list.as_ref().map_or(0, Vec::len);
    let words = |list: &Option<Vec<u32>>| list.as_ref().map_or(0, Vec::len);
    let pids = |list: &Option<Vec<i32>>| list.as_ref().map_or(0, Vec::len);
    match field {
        18 => status.groups.len(),
        19 => pids(&status.nstgid),
        20 => pids(&status.nspid),
        21 => pids(&status.nspgid),
        22 => pids(&status.nssid),
        54 => words(&status.cpus_allowed),
        55 => ranges(&status.cpus_allowed_list),
        56 => words(&status.mems_allowed),
        57 => ranges(&status.mems_allowed_list),
        _ => 0,
    }
}
