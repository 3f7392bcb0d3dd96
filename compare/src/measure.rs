//! Texts of /proc/PID/smaps, read as a measure: how many mappings, and three totals.

use crate::answer;
use crate::differences::{self, Difference};
use crate::inputs;
use crate::record::{block, Answer, Due, Reading, Refusal};
use crate::text::Text;

pub fn reading() -> Reading {
    Reading {
        names: &["smaps", "maps", "smaps_rollup"],
        fields: 0,
        safe_fields: &[],
        listed: inputs::listed,
        generated: inputs::generated,
        due,
        differences: Difference::ALL.map(Difference::name).to_vec(),
        refusals: &[1, 2, 3, 4, 5, 6, 7, 8, 9, 10],
        block: Some(block(
            "1000-3000 r--p 00000000 08:01 77 /a\nRss: 8 kB\n",
            "A",
        )),
        written,
    }
}

fn due(text: Text) -> Result<Due, String> {
    let due = differences::due(text);
    let ours = match due.ours {
        Some(answer::Answer::Accepted {
            mappings,
            totals: [rss, pss, swappss],
        }) => Answer::Accepted(format!("{mappings} {rss} {pss} {swappss}")),
        Some(answer::Answer::Refused { number, line }) => Answer::Refused(Refusal {
            number: number as usize,
            line: line as usize,
            field: 0,
        }),
        None => return Err(due.to_string()),
    };
    Ok(Due {
        ours,
        difference: due.difference.map(Difference::name),
    })
}

/// A list of measures has no fields.
fn written(answer: &Answer) -> String {
    match answer {
        Answer::Accepted(_) => answer.to_string(),
        Answer::Refused(Refusal { number, line, .. }) => format!("refused {number} {line}"),
    }
}
