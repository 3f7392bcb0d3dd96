//! The answer of procfs-core to a text, with the number, line and field of a refusal.

use crate::record::source::{Place, Source};
use crate::record::Refusal;
use crate::text::{lines, Outcome, Text};
use procfs_core::{FromBufRead, ProcError};

/// A record that procfs-core reads.
pub trait Record: FromBufRead {
    fn source() -> &'static Source;

    /// For each name, in the order of the fields: a line that is accepted.
    fn good_lines() -> &'static [GoodLine];
}

pub struct GoodLine {
    /// The first of the fields that are read from it.
    pub field: usize,
    pub line: String,
}

/// The record, or the refusal in our terms. An error says what has no counterpart there.
pub fn read<T: Record>(text: Text) -> Result<Result<T, Refusal>, String> {
    let Outcome {
        result,
        line,
        broke_off,
    } = text.read::<T>();
    let error = match result {
        Some(Ok(record)) => return Ok(Ok(record)),
        Some(Err(error)) => error,
        None => return Err(format!("a panic at line {line}")),
    };
    let taking = |number| {
        Ok(Err(Refusal {
            number,
            line,
            field: 0,
        }))
    };
    let (fault, place) = match &error {
        ProcError::Io(error, None) if error.kind() == std::io::ErrorKind::InvalidData => {
            return taking(1);
        }
        ProcError::Io(_, None) if broke_off => return taking(1),
        ProcError::InternalError(inner) => {
            (fault(&inner.msg), T::source().place(inner.line as usize))
        }
        _ => (None, Place::Helper),
    };
    // A line that ends a text because it is not UTF-8, or did not come whole, was not taken.
    let mut taken: Vec<&[u8]> = lines(text.bytes).take(line).collect();
    if taken.last().is_some_and(|last| {
        std::str::from_utf8(last).is_err() || broke_off && !last.ends_with(b"\n")
    }) {
        taken.pop();
    }
    let number = match (place, fault) {
        (Place::Taking, Some(Fault::Absent)) => return taking(5),
        (Place::Field(_), Some(Fault::Absent)) => 11,
        (Place::Field(_), Some(Fault::Piece)) => 5,
        (Place::Field(_) | Place::Helper, Some(Fault::Figure)) => 6,
        _ => return Err(format!("an error of another form: {error}")),
    };
    Ok(Err(Refusal {
        number,
        line: taken.len(),
        field: field::<T>(place, &taken.concat())?,
    }))
}

/// The first field that is refused. The line of the source tells it, but for errors that arise in a
/// function of several fields. So it is also told by reading: the good lines of later names are put
/// behind the text, where they stand in for the text's own, and the name sought is the first one that
/// is refused though all later names are good.
fn field<T: Record>(place: Place, text: &[u8]) -> Result<usize, String> {
    let good = T::good_lines();
    let accepted = |kept: usize| {
        let later = with_good::<T>(text, |field| kept < good.len() && field >= good[kept].field);
        matches!(Text::whole(&later).read::<T>().result, Some(Ok(_)))
    };
    let name = match place {
        Place::Field(field) => good.partition_point(|good| good.field <= field) - 1,
        _ => last_accepted(good.len(), accepted),
    };
    if !accepted(name) || accepted(name + 1) {
        return Err("a refusal that its field is not the cause of".to_string());
    }
    match place {
        Place::Field(field) => Ok(field),
        _ => Ok(good[name].field),
    }
}

/// The last number below `most` that is accepted, if 0 is.
fn last_accepted(mut most: usize, accepted: impl Fn(usize) -> bool) -> usize {
    let mut least = 0;
    while most - least > 1 {
        let kept = (least + most) / 2;
        if accepted(kept) {
            least = kept;
        } else {
            most = kept;
        }
    }
    least
}

/// The text with good lines behind it, of the names whose first fields are chosen.
pub fn with_good<T: Record>(text: &[u8], chosen: impl Fn(usize) -> bool) -> Vec<u8> {
    let mut text = text.to_vec();
    if !text.is_empty() && !text.ends_with(b"\n") {
        text.push(b'\n');
    }
    for good in T::good_lines().iter().filter(|good| chosen(good.field)) {
        text.extend_from_slice(good.line.as_bytes());
    }
    text
}

/// What an `InternalError` is about.
enum Fault {
    /// Nothing where something is needed.
    Absent,
    /// The same in a function, whose error is quoted by another.
    Piece,
    /// No number.
    Figure,
}

/// Texts of the input are quoted within, so only the ends of a message tell.
fn fault(message: &str) -> Option<Fault> {
    const ABSENT: &str = "Internal Unwrap Error: NoneError";
    const FIGURE: [&str; 4] = [
        ": cannot parse integer from empty string",
        ": invalid digit found in string",
        ": number too large to fit in target type",
        ": number too small to fit in target type",
    ];
    if message == ABSENT {
        Some(Fault::Absent)
    } else if message.ends_with(ABSENT) {
        Some(Fault::Piece)
    } else if FIGURE.iter().any(|end| message.ends_with(end)) {
        Some(Fault::Figure)
    } else {
        None
    }
}
