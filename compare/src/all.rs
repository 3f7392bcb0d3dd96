//! Runs procfs-core and this repository's library on many texts of every reading, and counts where the
//! answers agree, where they differ as intended, and where they differ otherwise. The library answers by
//! the program crates/replay, to which lists are handed one batch at a time; smaps texts are measured by
//! the static library too.
//!
//! Words: REPLAY, the program; FOLDER, for the lists; COUNT, how many texts dice make for each reading;
//! SEED, which sets them.

// Some of these have more than is used here.
mod answer;
mod cases;
mod counts;
mod damage;
mod dice;
mod differences;
mod escape;
#[allow(dead_code)]
mod inputs;
mod limits;
mod machine;
mod measure;
#[allow(dead_code)]
mod ours;
#[allow(dead_code)]
mod readings;
mod record;
#[allow(dead_code)]
mod reference;
mod replay;
mod rows;
mod shorter;
mod status;
mod support;
mod text;

use answer::Answer;
use cases::{Cases, Sort};
use counts::{line, listed, Counts, Told};
use record::Reading;
use replay::Replay;
use std::collections::HashSet;
use std::fs::{self, File};
use std::io::{self, BufWriter, Write};
use std::path::PathBuf;
use std::process::ExitCode;
use std::time::Instant;
use text::Case;

/// The texts of a list.
const BATCH: usize = 25_000;

/// The texts that differ otherwise that are printed, and those that are cut down, of a reading.
const PRINTED: usize = 20;
const CUT_DOWN: usize = 5;

/// The most bytes of a text that is printed.
const SHOWN: usize = 100_000;

/// What is compared: its name, and the names of its readings, each with its share of the made texts in
/// quarters.
const COMPARED: [(&str, &[(&str, usize)]); 7] = [
    ("smaps measure", &[("measure", 4)]),
    ("rows", &[("rows", 3), ("narrow", 1)]),
    ("status", &[("status", 4)]),
    ("limits", &[("limits", 4)]),
    ("descriptor targets", &[("target", 4)]),
    ("system calls", &[("syscall", 4)]),
    ("page words", &[("page", 4)]),
];

fn main() -> ExitCode {
    let words: Vec<String> = std::env::args().skip(1).collect();
    let numbers: Option<Vec<u64>> = words.iter().skip(2).map(|word| word.parse().ok()).collect();
    let Some([count, seed]) = numbers.as_deref() else {
        eprintln!("usage: all REPLAY FOLDER COUNT SEED");
        return ExitCode::from(2);
    };
    // procfs-core's panics are answers here.
    std::panic::set_hook(Box::new(|_| {}));
    let replay = Replay {
        program: PathBuf::from(&words[0]),
        folder: PathBuf::from(&words[1]),
    };
    match compare_all(&replay, *count as usize, *seed) {
        Ok(true) => ExitCode::SUCCESS,
        Ok(false) => ExitCode::FAILURE,
        Err(error) => {
            eprintln!("{error}");
            ExitCode::from(2)
        }
    }
}

/// Answers whether nothing differs otherwise, and the coverage is whole: every refusal that the rules
/// have was met, every field at which one can come, and every intended difference.
fn compare_all(replay: &Replay, count: usize, seed: u64) -> io::Result<bool> {
    let mut right = true;
    let mut lacking = Vec::new();
    for (name, readings) in COMPARED {
        let started = Instant::now();
        let mut comparison = Comparison::of(replay, seed);
        for (reading, quarters) in readings {
            comparison.run(reading, count * quarters / 4)?;
        }
        let reading = readings::reading(readings[0].0).expect("the name of a reading");
        println!("{name}");
        comparison.print(&reading);
        line("seconds", started.elapsed().as_secs() as usize);
        println!();
        right &= comparison.otherwise == 0 && comparison.counts.untold == 0;
        lacking.extend(
            comparison
                .lacking(&reading)
                .map(|what| format!("{name}: {what}")),
        );
    }
    if lacking.is_empty() {
        println!("coverage: whole");
    } else {
        println!("coverage: {}", lacking.join("; "));
    }
    Ok(right && lacking.is_empty())
}

struct Comparison<'a> {
    replay: &'a Replay,
    /// For the next batch.
    seed: u64,
    counts: Counts,
    /// Hashes of the texts.
    different: HashSet<u64>,
    otherwise: usize,
}

impl Comparison<'_> {
    fn of(replay: &Replay, seed: u64) -> Comparison<'_> {
        Comparison {
            replay,
            seed,
            counts: Counts::default(),
            different: HashSet::new(),
            otherwise: 0,
        }
    }

    /// Compares all texts of a reading, with so many made ones.
    fn run(&mut self, name: &str, count: usize) -> io::Result<()> {
        let reading = readings::reading(name).expect("the name of a reading");
        let cases = Cases::of(&reading);
        let mut fixed = cases.fixed().peekable();
        while fixed.peek().is_some() {
            self.batch(name, &reading, fixed.by_ref().take(BATCH))?;
        }
        let mut left = count;
        while left > 0 {
            let size = left.min(BATCH);
            self.batch(name, &reading, cases.made(size, self.seed))?;
            self.seed = self.seed.wrapping_add(1);
            left -= size;
        }
        self.batch(name, &reading, cases.huge())
    }

    fn batch(
        &mut self,
        name: &str,
        reading: &Reading,
        cases: impl Iterator<Item = (Sort, Case)>,
    ) -> io::Result<()> {
        let mut file = BufWriter::new(File::create(self.replay.list())?);
        let mut batch = Vec::new();
        for (sort, case) in cases {
            self.counts.input(sort);
            self.different.insert(case.hash());
            match (reading.due)(case.text()) {
                Ok(due) => {
                    let told = Told::of(&due);
                    let due = (reading.written)(&due.ours);
                    writeln!(file, "{}\t{due}", case.written())?;
                    let direct = (name == "measure").then(|| directly(&case)).flatten();
                    batch.push((told, direct.filter(|answer| *answer != due)));
                }
                Err(why) => {
                    self.counts.untold += 1;
                    println!(
                        "not told: {name}: {why}\n  text: {}",
                        shown(&case.written())
                    );
                }
            }
        }
        file.into_inner().map_err(|error| error.into_error())?;
        self.answered(name, reading, batch)?;
        fs::remove_file(self.replay.list())
    }

    /// Counts a batch, whose list is written. The static library's answers are those that are not due.
    fn answered(
        &mut self,
        name: &str,
        reading: &Reading,
        batch: Vec<(Told, Option<String>)>,
    ) -> io::Result<()> {
        let differing = self.replay.differing(name, batch.len())?;
        let mut answers: Vec<Option<String>> = Vec::new();
        let mut told = Vec::new();
        for (each, direct) in batch {
            told.push(each);
            answers.push(direct);
        }
        for each in differing {
            answers[each.place] = Some(each.answer);
        }
        if answers.iter().any(Option::is_some) {
            let list = fs::read_to_string(self.replay.list())?;
            for (line, answer) in list.lines().zip(&answers) {
                if let Some(answer) = answer {
                    self.differs(name, reading, line, answer)?;
                }
            }
        }
        for (told, answer) in told.into_iter().zip(answers) {
            if answer.is_none() {
                self.counts.told(told);
            }
        }
        Ok(())
    }

    /// Prints a line of a list that is answered otherwise than is due.
    fn differs(
        &mut self,
        name: &str,
        reading: &Reading,
        line: &str,
        answer: &str,
    ) -> io::Result<()> {
        self.otherwise += 1;
        if self.otherwise > PRINTED {
            return Ok(());
        }
        let (text, due) = line.split_once('\t').unwrap_or((line, ""));
        println!("differs otherwise: {name}");
        println!("  due:      {}", shown(due));
        println!("  ours:     {}", shown(answer));
        println!("  text:     {}", shown(text));
        if self.otherwise <= CUT_DOWN && text.len() <= SHOWN {
            if let Some(case) = Case::unwritten(text) {
                let least = self.least(name, reading, &case);
                println!("  cut down: {}", least.written());
            }
        }
        Ok(())
    }

    /// The text with lines and bytes taken out, as long as replay answers it otherwise than is due.
    fn least(&self, name: &str, reading: &Reading, case: &Case) -> Case {
        // The list is read on.
        let replay = Replay {
            program: self.replay.program.clone(),
            folder: self.replay.folder.join("least"),
        };
        let with = |bytes: &[u8]| case.with(bytes.to_vec());
        let bytes = shorter::cut_down(case.text().bytes, |bytes| {
            let case = with(bytes);
            (reading.due)(case.text()).is_ok_and(|due| {
                let line = format!("{}\t{}", case.written(), (reading.written)(&due.ours));
                replay.differs(name, &line).unwrap_or(false)
            })
        });
        with(&bytes)
    }

    fn print(&self, reading: &Reading) {
        self.counts.print_inputs();
        line("different texts", self.different.len());
        self.counts.print_answers("answered as is due");
        self.counts.print_differences(reading);
        line("differing otherwise", self.otherwise);
        line("not told", self.counts.untold);
        if reading.fields > 0 {
            let reached = self.counts.fields(reading, true).len();
            let never = listed(&self.counts.fields(reading, false));
            let fields = reading.fields;
            println!("fields at which refusals came: {reached} of {fields}; others: {never}");
            println!(
                "fields at which none can come: {}",
                listed(reading.safe_fields)
            );
        }
    }

    /// What was not met and has to be, or was met and has not.
    fn lacking<'a>(&'a self, reading: &'a Reading) -> impl Iterator<Item = String> + 'a {
        let met = |number: &usize| self.counts.refused.contains_key(number);
        let refusals = reading.refusals.iter().filter(move |number| !met(number));
        let others = self.counts.refused.keys();
        let others = others.filter(|number| !reading.refusals.contains(number));
        let differences = reading.differences.iter();
        let fields = self.counts.fields(reading, false).into_iter();
        let fields = fields.filter(|field| !reading.safe_fields.contains(field));
        refusals
            .map(|number| format!("refusal {number} was not met"))
            .chain(others.map(|number| format!("refusal {number}, which the rules do not have")))
            .chain(
                differences
                    .filter(|name| self.counts.difference(name) == 0)
                    .map(|name| format!("the difference \"{name}\" was not met")),
            )
            .chain(fields.map(|field| format!("no refusal came at field {field}")))
    }
}

/// The static library's answer to a text that does not break off, as lists have it.
fn directly(case: &Case) -> Option<String> {
    let text = case.text();
    if text.broken {
        return None;
    }
    Some(match ours::measure(text.bytes) {
        Ok(Answer::Accepted {
            mappings,
            totals: [rss, pss, swappss],
        }) => format!("ok {mappings} {rss} {pss} {swappss}"),
        Ok(Answer::Refused { number, line }) => format!("refused {number} {line}"),
        Err(form) => form,
    })
}

fn shown(text: &str) -> &str {
    if text.len() <= SHOWN {
        text
    } else {
        "(too long to be shown)"
    }
}
