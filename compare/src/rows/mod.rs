//! Texts of /proc/PID/smaps, maps and smaps_rollup, read as rows: every field of every mapping, its flags and its attributes.

mod differences;
mod inputs;
mod shown;

use crate::record::{block, Answer, Reading};

pub fn reading() -> Reading {
    Reading {
        names: &["smaps", "maps", "smaps_rollup"],
        fields: 0,
        safe_fields: &[],
        listed: inputs::listed,
        generated: inputs::generated,
        due: differences::due,
        differences: differences::ALL.to_vec(),
        refusals: &[1, 2, 3, 4, 5, 6, 7, 8, 9, 12, 21],
        block: Some(block(
            "1000-3000 r--p 00000000 08:01 77 /a\nRss: 8 kB\n",
            "A",
        )),
        written: Answer::to_string,
    }
}

/// With tables of few cells.
pub fn narrow() -> Reading {
    Reading {
        due: differences::narrow_due,
        ..reading()
    }
}
