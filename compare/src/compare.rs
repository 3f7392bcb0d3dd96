//! Hands the same smaps texts to procfs-core and to this repository's library, and counts where the
//! answers agree, where they differ as intended, and where they differ otherwise.
//!
//! Words: COUNT, the number of generated and damaged texts; SEED, which sets them.

mod answer;
mod damage;
mod dice;
mod differences;
mod escape;
mod inputs;
mod machine;
mod ours;
mod reference;
mod shorter;
#[allow(dead_code)]
mod text;

use answer::Answer;
use damage::damaged;
use dice::Dice;
use differences::{due, Difference, Due};
use shorter::cut_down;
use std::process::ExitCode;
use text::Text;

#[derive(Clone, Copy)]
enum Sort {
    Real,
    Listed,
    Generated,
    Damaged,
    Huge,
}

const SORTS: [&str; 5] = ["real", "listed", "generated", "damaged", "huge"];

/// The most bytes of a text that is printed.
const SHOWN: usize = 1_000_000;

#[derive(Default)]
struct Counts {
    inputs: [usize; SORTS.len()],
    filled: usize,
    accepted: usize,
    refused: [usize; 23],
    differing: [usize; Difference::ALL.len()],
    otherwise: usize,
}

fn main() -> ExitCode {
    let mut words = std::env::args().skip(1);
    let mut number = |default: u64| words.next().map_or(Some(default), |word| word.parse().ok());
    let (Some(count), Some(seed)) = (number(5000), number(1)) else {
        eprintln!("usage: compare [COUNT [SEED]]");
        return ExitCode::from(2);
    };
    // procfs-core's panics are answers here.
    std::panic::set_hook(Box::new(|_| {}));

    let mut counts = Counts::default();
    let real = machine::texts("smaps");
    for text in &real {
        counts.compare(Sort::Real, text);
    }
    let filled: Vec<&Vec<u8>> = real.iter().filter(|text| !text.is_empty()).collect();
    counts.filled = filled.len();
    for text in inputs::listed() {
        counts.compare(Sort::Listed, &text);
    }
    let mut dice = Dice::new(seed);
    for index in 0..count {
        let text = inputs::generated(&mut dice);
        if index % 2 == 0 {
            counts.compare(Sort::Generated, &text);
        } else if index % 8 == 1 && !filled.is_empty() {
            let text = dice.pick(&filled);
            counts.compare(Sort::Damaged, &damaged(&mut dice, text));
        } else {
            counts.compare(Sort::Damaged, &damaged(&mut dice, &text));
        }
    }
    for text in (0..).map_while(inputs::huge) {
        counts.compare(Sort::Huge, &text);
    }
    counts.print();
    if counts.otherwise == 0 {
        ExitCode::SUCCESS
    } else {
        ExitCode::FAILURE
    }
}

/// Whether the library gives the answer that is due.
fn as_due(due: &Due, answer: &Result<Answer, String>) -> bool {
    matches!((answer, &due.ours), (Ok(answer), Some(ours)) if answer == ours)
}

/// Whether the answers to the text differ, and no intended difference says why.
fn differs_otherwise(text: &[u8]) -> bool {
    !as_due(&due(Text::whole(text)), &ours::measure(text))
}

impl Counts {
    fn compare(&mut self, sort: Sort, text: &[u8]) {
        self.inputs[sort as usize] += 1;
        let due = due(Text::whole(text));
        let answer = ours::measure(text);
        if !as_due(&due, &answer) {
            self.otherwise += 1;
            println!(
                "differs otherwise: {}, {} bytes",
                SORTS[sort as usize],
                text.len()
            );
            println!("  procfs-core: {due}");
            println!(
                "  ours:        {}",
                answer.map_or_else(|form| form, |answer| answer.to_string())
            );
            if text.len() <= SHOWN {
                println!("  text:        \"{}\"", text.escape_ascii());
                if self.otherwise <= 20 {
                    println!(
                        "  cut down:    \"{}\"",
                        cut_down(text, differs_otherwise).escape_ascii()
                    );
                }
            }
            return;
        }
        match (due.difference, due.ours) {
            (Some(difference), _) => self.differing[difference as usize] += 1,
            (None, Some(Answer::Refused { number, .. })) => self.refused[number as usize] += 1,
            (None, _) => self.accepted += 1,
        }
    }

    fn print(&self) {
        let line = |indent: &str, name: &str, count: usize| {
            println!("{:<34}{count:>9}", format!("{indent}{name}"))
        };
        line("", "inputs", self.inputs.iter().sum());
        for (sort, count) in SORTS.iter().zip(self.inputs) {
            line("  ", sort, count);
        }
        line("    ", "real, not empty", self.filled);
        line(
            "",
            "agreed",
            self.accepted + self.refused.iter().sum::<usize>(),
        );
        line("  ", "accepted", self.accepted);
        for (number, count) in self
            .refused
            .iter()
            .enumerate()
            .filter(|(_, count)| **count > 0)
        {
            line("  ", &format!("refused {number}"), *count);
        }
        line("", "differing as intended", self.differing.iter().sum());
        for difference in Difference::ALL {
            line("  ", difference.name(), self.differing[difference as usize]);
        }
        line("", "differing otherwise", self.otherwise);
    }
}
