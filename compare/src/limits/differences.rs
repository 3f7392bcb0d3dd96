//! What this repository's library has to answer to a limits text: what procfs-core answers, but for
//! the differences that are intended:
//!
//! - 4096 bytes of a line without a byte 10 are refused 2, a line that takes the text past
//!   268435456 bytes 3.
//!
//! A line of under three words is refused 5. Here procfs-core refuses it too; where it is built with
//! overflow checks, it panics.

use crate::limits::reference::fields;
use crate::record::lines::Head;
use crate::record::reference::read;
use crate::record::{Answer, Due};
use crate::text::Text;
use procfs_core::process::Limits;

#[derive(Clone, Copy, Debug, PartialEq, Eq)]
pub enum Difference {
    LongLine,
    LongText,
}

impl Difference {
    pub const ALL: [Difference; 2] = [Difference::LongLine, Difference::LongText];

    pub fn name(self) -> &'static str {
        match self {
            Difference::LongLine => "long line",
            Difference::LongText => "long text",
        }
    }
}

pub fn due(text: Text) -> Result<Due, String> {
    let reference = answer(text)?;
    let head = Head::of(text);
    let read = if head.text == text {
        reference.clone()
    } else {
        answer(head.text)?
    };
    let ours = match (read, head.stop) {
        (Answer::Refused(refusal), _) if refusal.field == 0 => Answer::Refused(refusal),
        (_, Some(stop)) => Answer::Refused(stop),
        (answer, None) => answer,
    };
    let difference = match &ours {
        _ if ours == reference => None,
        Answer::Refused(refusal) if refusal.number == 2 => Some(Difference::LongLine),
        Answer::Refused(refusal) if refusal.number == 3 => Some(Difference::LongText),
        _ => return Err(format!("{reference}, but due is {ours}")),
    };
    Ok(Due {
        ours,
        difference: difference.map(Difference::name),
    })
}

fn answer(text: Text) -> Result<Answer, String> {
    Ok(match read::<Limits>(text)? {
        Ok(limits) => Answer::Accepted(fields(&limits)),
        Err(refusal) => Answer::Refused(refusal),
    })
}
