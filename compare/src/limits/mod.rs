//! Texts of /proc/PID/limits.

mod differences;
mod inputs;
mod names;
mod reference;

use crate::record::{block, Answer, Reading};

pub fn reading() -> Reading {
    reference::check();
    Reading {
        names: &["limits"],
        fields: names::NAMES.len(),
        safe_fields: &[],
        listed: inputs::listed,
        generated: inputs::generated,
        due: differences::due,
        differences: differences::Difference::ALL
            .map(differences::Difference::name)
            .to_vec(),
        refusals: &[2, 3, 5, 6, 11],
        block: Some(block(&inputs::plain(), "a b ")),
        written: Answer::to_string,
    }
}
