//! The answer of this repository's library to a text.

use crate::answer::Answer;
use jomukahu::{Figures, Source};

/// What the library answers, or what is wrong with the form of its answer.
pub fn measure(text: &[u8]) -> Result<Answer, String> {
    match jomukahu::measure(Source::held(text)) {
        Ok(measure) => {
            let Figures { rss, pss, swap_pss } = measure.totals();
            Ok(Answer::Accepted {
                mappings: measure.mappings().into(),
                totals: [rss, pss, swap_pss],
            })
        }
        Err(refusal) if refusal.field() == 0 => Ok(Answer::Refused {
            number: refusal.number(),
            line: refusal.line().into(),
        }),
        Err(refusal) => Err(format!("of a field: {refusal}")),
    }
}
