//! Times the library beside procfs-core: the measure of smaps texts, and the readings of status and limits.
//!
//! Words: FILE, where a text is put for awk; ROUNDS.

mod records;
mod smaps;
mod timing;

use std::process::ExitCode;

fn main() -> ExitCode {
    let words: Vec<String> = std::env::args().skip(1).collect();
    let [file, rounds] = words.as_slice() else {
        eprintln!("usage: bench FILE ROUNDS");
        return ExitCode::from(2);
    };
    let Ok(rounds @ 1..) = rounds.parse() else {
        eprintln!("usage: bench FILE ROUNDS");
        return ExitCode::from(2);
    };
    smaps::compare(file, rounds);
    records::compare(rounds);
    ExitCode::SUCCESS
}
