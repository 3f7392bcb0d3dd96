//! Readings of single values: targets of descriptors, system calls and page words.

mod page;
mod syscall;
mod target;

use crate::record::{Answer, Due, Reading, Refusal};
use crate::text::Text;

pub fn target() -> Reading {
    reading(
        &["fd"],
        target::listed,
        target::generated,
        target::due,
        &target::DIFFERENCES,
        &[1, 6, 20],
    )
}

pub fn syscall() -> Reading {
    reading(
        &["syscall"],
        syscall::listed,
        syscall::generated,
        syscall::due,
        &syscall::DIFFERENCES,
        &[1, 2, 5, 6],
    )
}

pub fn page() -> Reading {
    // The file of the machine is too long to be read whole, and no text.
    reading(&[], page::listed, page::generated, page::due, &[], &[])
}

fn reading(
    names: &'static [&'static str],
    listed: fn() -> Vec<Vec<u8>>,
    generated: fn(&mut crate::dice::Dice) -> Vec<u8>,
    due: fn(Text) -> Result<Due, String>,
    differences: &[&'static str],
    refusals: &'static [usize],
) -> Reading {
    Reading {
        names,
        fields: 0,
        safe_fields: &[],
        listed,
        generated,
        due,
        differences: differences.to_vec(),
        refusals,
        block: None,
        written: Answer::to_string,
    }
}

fn refused(number: usize) -> Answer {
    Answer::Refused(Refusal {
        number,
        line: 0,
        field: 0,
    })
}

/// A text as an answer has it: an equals sign and its bytes in base 16.
fn name(text: &str) -> String {
    text.bytes()
        .fold("=".to_string(), |out, byte| format!("{out}{byte:02x}"))
}

/// Every text over the bytes of up to so many, the empty one too.
fn every(bytes: &[u8], most: usize) -> Vec<Vec<u8>> {
    let mut all = vec![Vec::new()];
    let mut last = all.clone();
    for _ in 0..most {
        last = last
            .iter()
            .flat_map(|text| {
                bytes.iter().map(|byte| {
                    let mut text = text.clone();
                    text.push(*byte);
                    text
                })
            })
            .collect();
        all.extend_from_slice(&last);
    }
    all
}

/// What is due where procfs-core answers `reference` and our library `ours`.
fn due(ours: Answer, reference: Option<Answer>, difference: &'static str) -> Due {
    let difference = (Some(&ours) != reference.as_ref()).then_some(difference);
    Due { ours, difference }
}
