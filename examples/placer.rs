//! Places live processes on a packing list, by what the kernel says that they take.

use jomukahu::{measure, LimitValue, Measure, PackingList, Refusal, Source, View};
use std::collections::BTreeMap;
use std::fs;
use std::io::{stdout, Write};
use std::process::{self, ExitCode};

const HELP: &str = "\
usage: placer LIMIT [HEADROOM] [PID..]

Measures each process by its /proc/PID/smaps, and admits it to a packing list of LIMIT bytes, charged for its Pss and
SwapPss and HEADROOM bytes (0) more. Of those that are admitted, status and limits are read too. The processes are those
named, in their order; else all that can be read, the largest first. A line is printed for each with its charge, in
bytes and in MiB, its state, its threads and how many files it may have open, and what came of it; then the total.

Processes that can't be read and ones without mappings, as kernel threads are, are skipped, which is told on standard
error. The exit status is 0; 1 where no process could be measured; 2 where the arguments are wrong.
";

struct Asked {
    limit: u64,
    headroom: u64,
    pids: Vec<i32>,
}

struct Job {
    pid: i32,
    name: String,
    measure: Measure,
}

struct Skipped {
    file: String,
    why: String,
}

fn main() -> ExitCode {
    let words = std::env::args_os().skip(1);
    let arguments: Vec<String> = words.map(|word| word.to_string_lossy().into()).collect();
    if let Some("-h" | "--help") = arguments.first().map(String::as_str) {
        return printed(HELP);
    }
    let asked = match asked(&arguments) {
        Ok(asked) => asked,
        Err(wrong) => {
            eprintln!("placer: {wrong}\nusage: placer LIMIT [HEADROOM] [PID..]; --help says more");
            return ExitCode::from(2);
        }
    };
    let jobs = jobs(&asked.pids);
    if jobs.is_empty() {
        eprintln!("placer: no process could be measured");
        return ExitCode::FAILURE;
    }
    printed(&placed(&asked, jobs))
}

fn printed(text: &str) -> ExitCode {
    match stdout().write_all(text.as_bytes()) {
        Ok(()) => ExitCode::SUCCESS,
        Err(error) => {
            eprintln!("placer: standard output: {error}");
            ExitCode::FAILURE
        }
    }
}

fn asked(arguments: &[String]) -> Result<Asked, String> {
    let bytes = |name: &str, word: &String| {
        word.parse::<u64>()
            .map_err(|error| format!("{name} is a number of bytes, not {word:?}: {error}"))
    };
    let pid = |word: &String| {
        word.parse::<i32>()
            .map_err(|error| format!("PID is a number, not {word:?}: {error}"))
    };
    let limit = arguments.first().ok_or("LIMIT is missing")?;
    Ok(Asked {
        limit: bytes("LIMIT", limit)?,
        headroom: match arguments.get(1) {
            Some(word) => bytes("HEADROOM", word)?,
            None => 0,
        },
        pids: arguments
            .iter()
            .skip(2)
            .map(pid)
            .collect::<Result<_, _>>()?,
    })
}

/// The processes that can be measured, in the order in which they are to be admitted; tells which others were skipped.
fn jobs(named: &[i32]) -> Vec<Job> {
    let mut jobs = Vec::new();
    let mut skipped: BTreeMap<String, Vec<String>> = BTreeMap::new();
    let all = if named.is_empty() { running() } else { vec![] };
    for &pid in named.iter().chain(&all) {
        match job(pid) {
            Ok(job) => jobs.push(job),
            Err(Skipped { file, why }) => skipped.entry(why).or_default().push(file),
        }
    }
    for (why, files) in skipped {
        if named.is_empty() && files.len() > 1 {
            eprintln!("placer: {} processes skipped: {why}", files.len());
        } else {
            files
                .iter()
                .for_each(|file| eprintln!("placer: {file}: {why}, skipped"));
        }
    }
    if named.is_empty() {
        jobs.sort_by_key(|job| std::cmp::Reverse(taken(&job.measure)));
    }
    jobs
}

/// All processes but this one.
fn running() -> Vec<i32> {
    let entries = fs::read_dir("/proc").into_iter().flatten().flatten();
    let mut pids: Vec<i32> = entries
        .filter_map(|entry| entry.file_name().to_str()?.parse().ok())
        .filter(|&pid| pid != process::id() as i32)
        .collect();
    pids.sort();
    pids
}

fn job(pid: i32) -> Result<Job, Skipped> {
    let file = format!("/proc/{pid}/smaps");
    let measured = match fs::read(&file) {
        Ok(text) => measure(Source::held(&text)).map_err(|refusal| refusal.to_string()),
        Err(error) => Err(error.to_string()),
    };
    match measured {
        Ok(measure) if measure.mappings() > 0 => Ok(Job {
            pid,
            name: name(pid),
            measure,
        }),
        Ok(_) => Err(Skipped {
            file,
            why: "no mappings".to_string(),
        }),
        Err(why) => Err(Skipped { file, why }),
    }
}

fn name(pid: i32) -> String {
    let name = fs::read(format!("/proc/{pid}/comm")).unwrap_or_default();
    String::from_utf8_lossy(&name)
        .trim_end()
        .replace(char::is_control, "?")
}

/// What a process takes without headroom: two totals of at most 2 to the 56th.
fn taken(measure: &Measure) -> u64 {
    measure.totals().pss + measure.totals().swap_pss
}

/// The table of the jobs, admitted one after the other, and the total.
fn placed(asked: &Asked, jobs: Vec<Job>) -> String {
    let mut list = PackingList::new(asked.limit);
    let titles = [
        "PID", "NAME", "CHARGE", "MIB", "STATE", "THREADS", "FILES", "OUTCOME",
    ];
    let mut rows = vec![titles.map(String::from)];
    let mut admitted = 0;
    for Job { pid, name, measure } in jobs {
        let wanted = u128::from(taken(&measure)) + u128::from(asked.headroom);
        rows.push(match list.admit(pid, asked.headroom, measure) {
            Ok(()) => {
                admitted += 1;
                let outcome = told(&mut list, pid);
                let view = list.look(pid).expect("the job was admitted");
                row(pid, name, view.charge.into(), Some(view), outcome)
            }
            Err((refusal, _)) => row(pid, name, wanted, None, refusal.to_string()),
        });
    }
    let (used, left) = (list.used(), asked.limit - list.used());
    format!(
        "{}total: {admitted} admitted, used {used} ({} MiB) of {}, left {left} ({} MiB)\n",
        aligned(&rows),
        mib(used.into()),
        asked.limit,
        mib(left.into())
    )
}

type Row = [String; 8];

/// A job's row, with what the list keeps of it where it was admitted.
fn row(pid: i32, name: String, charge: u128, view: Option<View>, outcome: String) -> Row {
    let noted = view.and_then(|view| view.noted);
    let files = view
        .and_then(|view| view.bounds)
        .map(|bounds| match bounds.open_files {
            LimitValue::Unlimited => "unlimited".to_string(),
            LimitValue::Value(files) => files.to_string(),
        });
    let known = |shown: Option<String>| shown.unwrap_or("-".to_string());
    [
        pid.to_string(),
        name,
        charge.to_string(),
        mib(charge),
        known(noted.map(|noted| noted.state.to_string())),
        known(noted.map(|noted| noted.threads.to_string())),
        known(files),
        outcome,
    ]
}

/// Has the list read status and limits of a job that is in it. What came of it.
fn told(list: &mut PackingList, pid: i32) -> String {
    type Read = fn(&mut PackingList, i32, Source<'_>) -> Result<(), Refusal>;
    let mut outcome = "admitted".to_string();
    for (file, read) in [
        ("status", PackingList::note as Read),
        ("limits", PackingList::bound),
    ] {
        let file = format!("/proc/{pid}/{file}");
        let wrong = match fs::read(&file) {
            Ok(text) => read(list, pid, Source::held(&text))
                .err()
                .map(|refusal| refusal.to_string()),
            Err(error) => Some(error.to_string()),
        };
        if let Some(wrong) = wrong {
            outcome += &format!("; {file}: {wrong}");
        }
    }
    outcome
}

fn mib(bytes: u128) -> String {
    format!("{:.1}", bytes as f64 / 1_048_576.0)
}

/// The rows below each other: names, states and outcomes to the left, numbers to the right.
fn aligned(rows: &[Row]) -> String {
    let mut table = String::new();
    for row in rows {
        let mut line = String::new();
        for (at, cell) in row.iter().enumerate() {
            let width = rows
                .iter()
                .map(|row| row[at].chars().count())
                .max()
                .unwrap_or(0);
            line += &match at {
                1 | 4 | 7 => format!("{cell:<width$}  "),
                _ => format!("{cell:>width$}  "),
            };
        }
        table += line.trim_end();
        table.push('\n');
    }
    table
}
