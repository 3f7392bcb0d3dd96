//! Writes a sample of smaps texts with procfs-core's answers, as crates/replay reads it. One case a
//! line: the text, in which `\\` is a backslash and `\x` with two base-16 digits a byte, a tab, then
//! "ok" with mappings, Rss, Pss and SwapPss, or the class of the refusal. Texts of an intended
//! difference are left out.
//!
//! Words: FILE; N, the number of cases.

// The modules have more than is used here.
#![allow(dead_code)]

mod answer;
mod damage;
mod dice;
mod differences;
mod escape;
mod inputs;
mod reference;
mod text;

use answer::Answer;
use damage::damaged;
use dice::Dice;
use differences::due;
use escape::escaped;
use reference::totals;
use std::collections::HashSet;
use std::process::ExitCode;
use text::Text;

/// The most bytes of a text.
const LONGEST: usize = 2000;

/// Accepted, and our refusals that procfs-core has too: of each of these are 8 percent of the cases.
const KINDS: [u32; 6] = [0, 1, 4, 5, 6, 7];

/// A number of cases of each kind.
type Cases = [usize; KINDS.len()];

fn main() -> ExitCode {
    let words: Vec<String> = std::env::args().skip(1).collect();
    let count = words.get(1).map_or(Some(300), |word| word.parse().ok());
    let (Some(file), Some(count), true) = (words.first(), count, words.len() <= 2) else {
        eprintln!("usage: sample FILE [N]");
        return ExitCode::from(2);
    };
    // procfs-core's panics are answers here.
    std::panic::set_hook(Box::new(|_| {}));

    let mut wanted: Cases = [count * 8 / 100; KINDS.len()];
    wanted[0] = count - wanted[1..].iter().sum::<usize>();
    let mut sample = Sample::default();
    let mut dice = Dice::new(2);
    // Half of the cases are from the list.
    let half = wanted.map(|cases| cases / 2);
    let mut listed = inputs::listed();
    while !listed.is_empty() && sample.lacks(&half) {
        let place = dice.below(listed.len());
        sample.take(listed.swap_remove(place), &half);
    }
    while sample.lacks(&wanted) {
        let text = inputs::generated(&mut dice);
        let text = if dice.chance(40) {
            damaged(&mut dice, &text)
        } else {
            text
        };
        sample.take(text, &wanted);
    }
    match std::fs::write(file, sample.lines) {
        Ok(()) => ExitCode::SUCCESS,
        Err(error) => {
            eprintln!("{file}: {error}");
            ExitCode::FAILURE
        }
    }
}

#[derive(Default)]
struct Sample {
    texts: HashSet<Vec<u8>>,
    taken: Cases,
    lines: String,
}

impl Sample {
    fn lacks(&self, wanted: &Cases) -> bool {
        self.taken
            .iter()
            .zip(wanted)
            .any(|(taken, wanted)| taken < wanted)
    }

    /// Takes the text, if it is new and more of its kind are wanted.
    fn take(&mut self, text: Vec<u8>, wanted: &Cases) {
        if text.len() > LONGEST || self.texts.contains(&text) {
            return;
        }
        let due = due(Text::whole(&text));
        let number = match (due.ours, due.difference) {
            (Some(Answer::Accepted { .. }), None) => 0,
            (Some(Answer::Refused { number, .. }), None) => number,
            _ => return,
        };
        let Some(kind) = KINDS.iter().position(|each| *each == number) else {
            return;
        };
        let answer = match due.reference {
            reference::Answer::Accepted(maps) => {
                let [rss, pss, swappss] = totals(&maps);
                format!("ok {} {rss} {pss} {swappss}", maps.len())
            }
            reference::Answer::Refused { class, .. } => class.name().to_string(),
        };
        if self.taken[kind] >= wanted[kind] {
            return;
        }
        self.taken[kind] += 1;
        self.lines += &format!("{}\t{answer}\n", escaped(&text));
        self.texts.insert(text);
    }
}
