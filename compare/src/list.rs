//! Writes texts of a reading (measure, rows, narrow, status, limits, target, syscall or page) with the
//! answers that our library has to give. Narrow is rows with tables of few cells. One case a line: the
//! text, in which `\\` is a backslash, `\x` with two base-16 digits a byte, `\+` all that stands before
//! it once more, and `\!` at the end that the text breaks off there; a tab; then "ok" with the fields, or
//! "refused" with number, line and field.
//!
//! - `list READING FILE [COUNT [SEED]]`: every readable text of the machine, a list of cases, and COUNT
//!   texts made by dice, with all that is due to them.
//! - `sample READING FILE [N]`: N cases in which procfs-core's own answer is due.
//!
//! No text comes near 268435456 bytes, so no case is refused 3: the comparison of all readings has those.

mod answer;
// These have more than is used here.
#[allow(dead_code)]
mod cases;
#[allow(dead_code)]
mod counts;
mod damage;
mod dice;
mod differences;
mod escape;
#[allow(dead_code)]
mod inputs;
mod limits;
mod machine;
mod measure;
mod readings;
#[allow(dead_code)]
mod record;
#[allow(dead_code)]
mod reference;
mod rows;
mod status;
mod support;
#[allow(dead_code)]
mod text;

use cases::Cases;
use counts::{line, listed, Counts, Told};
use damage::damaged;
use dice::Dice;
use escape::escaped;
use record::{Answer, Due, Reading};
use std::collections::{BTreeMap, HashSet};
use std::fs::File;
use std::io::{BufWriter, Write};
use std::process::ExitCode;
use text::Text;

fn main() -> ExitCode {
    let words: Vec<String> = std::env::args().skip(1).collect();
    let words: Vec<&str> = words.iter().map(String::as_str).collect();
    let number = |place: usize, default: usize| {
        words
            .get(place)
            .map_or(Some(default), |word| word.parse().ok())
    };
    let reading = words.get(1).and_then(|name| readings::reading(name));
    // procfs-core's panics are answers here.
    std::panic::set_hook(Box::new(|_| {}));
    let result = match (words.as_slice(), reading) {
        (["list", _, file, rest @ ..], Some(reading)) if rest.len() <= 2 => {
            match (number(3, 5000), number(4, 1)) {
                (Some(count), Some(seed)) => list(&reading, file, count, seed),
                _ => return usage(),
            }
        }
        (["sample", _, file, rest @ ..], Some(reading)) if rest.len() <= 1 => {
            match number(3, 200) {
                Some(count) => sample(&reading, file, count),
                None => return usage(),
            }
        }
        _ => return usage(),
    };
    match result {
        Ok(true) => ExitCode::SUCCESS,
        Ok(false) => ExitCode::FAILURE,
        Err(error) => {
            eprintln!("{}: {error}", words[2]);
            ExitCode::FAILURE
        }
    }
}

fn usage() -> ExitCode {
    let names = readings::NAMES.join("|");
    eprintln!("usage: list {names} FILE [COUNT [SEED]]");
    eprintln!("       sample {names} FILE [N]");
    ExitCode::from(2)
}

/// Writes all cases. Answers whether it could be told what is due to each.
fn list(reading: &Reading, file: &str, count: usize, seed: usize) -> std::io::Result<bool> {
    let mut file = BufWriter::new(File::create(file)?);
    let mut counts = Counts::default();
    let cases = Cases::of(reading);
    for (sort, case) in cases.fixed().chain(cases.made(count, seed as u64)) {
        counts.input(sort);
        match (reading.due)(case.text()) {
            Ok(due) => {
                counts.told(Told::of(&due));
                writeln!(file, "{}\t{}", case.written(), (reading.written)(&due.ours))?;
            }
            Err(why) => {
                counts.untold += 1;
                println!("not told: {why}\n  text: {}", case.written());
            }
        }
    }
    file.flush()?;
    counts.print_inputs();
    counts.print_answers("due");
    counts.print_differences(reading);
    line("not told", counts.untold);
    let never = listed(&counts.fields(reading, false));
    println!("fields never refused: {never}");
    Ok(counts.untold == 0)
}

/// The most bytes of a text in a sample.
const LONGEST: usize = 2500;

/// A list of so many items makes a kind of its own.
const LONG: usize = 31;

/// A kind of case: the number of the refusal and its field, and 0; or 0, the field of the longest list
/// if that is long, and how many items it has.
type Kind = (usize, usize, usize);

fn kind(answer: &Answer) -> Kind {
    let fields = match answer {
        Answer::Refused(refusal) => return (refusal.number, refusal.field, 0),
        Answer::Accepted(fields) => fields.split(' ').enumerate(),
    };
    let items = fields.map(|(index, field)| (field.split(',').count(), index + 1));
    match items.max() {
        Some((items, field)) if items >= LONG => (0, field, items),
        _ => (0, 0, 0),
    }
}

/// Writes a sample with cases of every kind that there is.
fn sample(reading: &Reading, file: &str, count: usize) -> std::io::Result<bool> {
    let mut dice = Dice::new(2);
    let mut texts = (reading.listed)();
    for _ in 0..texts.len() {
        let text = (reading.generated)(&mut dice);
        texts.push(if dice.chance(30) {
            damaged(&mut dice, &text)
        } else {
            text
        });
    }
    let mut kinds: BTreeMap<Kind, Vec<String>> = BTreeMap::new();
    let mut seen = HashSet::new();
    while !texts.is_empty() {
        let text = texts.swap_remove(dice.below(texts.len()));
        if text.len() > LONGEST || seen.contains(&text) {
            continue;
        }
        if let Ok(Due {
            ours,
            difference: None,
        }) = (reading.due)(Text::whole(&text))
        {
            let case = format!("{}\t{}\n", escaped(&text), (reading.written)(&ours));
            kinds.entry(kind(&ours)).or_default().push(case);
        }
        seen.insert(text);
    }
    let mut lines = Vec::new();
    while lines.len() < count && !kinds.is_empty() {
        for (kind, cases) in &mut kinds {
            // The kinds without a field have many forms.
            let turns = match kind {
                (0, 0, _) => 25,
                (_, 0, _) => 4,
                _ => 1,
            };
            for _ in 0..turns.min(count - lines.len()) {
                lines.extend(cases.pop());
            }
        }
        kinds.retain(|_, cases| !cases.is_empty());
    }
    std::fs::write(file, lines.concat())?;
    Ok(lines.len() == count)
}
