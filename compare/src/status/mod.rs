//! Texts of /proc/PID/status.

mod differences;
mod forms;
mod inputs;
mod names;
mod reference;

use crate::record::{block, Answer, Reading};

pub fn reading() -> Reading {
    reference::check();
    Reading {
        names: &["status"],
        fields: names::FIELDS,
        // An optional text, and flags.
        safe_fields: &[53, 60, 61],
        listed: inputs::listed,
        generated: inputs::generated,
        due: differences::due,
        differences: differences::Difference::ALL
            .map(differences::Difference::name)
            .to_vec(),
        refusals: &[1, 2, 3, 5, 6, 11, 12],
        block: Some(block(&inputs::least(), "Junk:")),
        written: Answer::to_string,
    }
}
