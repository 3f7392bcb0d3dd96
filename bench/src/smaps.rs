//! The measure of smaps texts: by the library, by procfs-core with the same sums over its records,
//! and by awk, which sums two keys and looks at nothing else.

use crate::timing::{children_seconds, median, real_texts, timed};
use jomukahu::{measure, Source};
use procfs_core::process::MemoryMaps;
use procfs_core::FromBufRead;
use std::process::{Command, Stdio};

/// Mappings, Rss, Pss and SwapPss.
type Figures = [u64; 4];

fn ours(text: &[u8]) -> Figures {
    let measure = measure(Source::held(text)).expect("the text is measured");
    let totals = measure.totals();
    [
        measure.mappings().into(),
        totals.rss,
        totals.pss,
        totals.swap_pss,
    ]
}

fn theirs(text: &[u8]) -> Figures {
    let maps = MemoryMaps::from_buf_read(text).expect("procfs-core reads the text");
    let mut figures = [0; 4];
    for map in &maps {
        figures[0] += 1;
        for (figure, key) in figures[1..].iter_mut().zip(["Rss", "Pss", "SwapPss"]) {
            *figure += map.extension.map.get(key).copied().unwrap_or(0);
        }
    }
    figures
}

const AWK: [(&str, &str); 2] = [
    (
        "awk, by a pattern",
        "/^Pss:/ { p += $2 } /^SwapPss:/ { s += $2 } END { print p, s }",
    ),
    (
        "awk, by the first word",
        "$1 == \"Pss:\" { p += $2 } $1 == \"SwapPss:\" { s += $2 } END { print p, s }",
    ),
];

/// Processor seconds of an awk program over a file.
fn awk_seconds(program: &str, file: &str) -> f64 {
    let before = children_seconds();
    let ended = Command::new("awk")
        .args([program, file])
        .stdout(Stdio::null())
        .status()
        .expect("awk runs");
    assert!(ended.success());
    children_seconds() - before
}

fn compared(name: &str, text: &[u8], file: &str, rounds: usize) {
    let (mut one, mut other) = (Vec::new(), Vec::new());
    let mut awk = [Vec::new(), Vec::new()];
    std::fs::write(file, text).expect("the text is written");
    for _ in 0..rounds {
        let (seconds, figures) = timed(|| ours(text));
        one.push(seconds);
        let (seconds, same) = timed(|| theirs(text));
        other.push(seconds);
        assert_eq!(figures, same, "{name}");
        for (times, (_, program)) in awk.iter_mut().zip(AWK) {
            times.push(awk_seconds(program, file));
        }
    }
    let megabytes = text.len() as f64 / 1e6;
    let (one, other) = (median(one), median(other));
    let mappings = ours(text)[0];
    println!("{name}: {mappings} mappings, {megabytes:.1} MB");
    println!("  {:<24}{:>9.1} MB/s", "measure", megabytes / one);
    println!(
        "  {:<24}{:>9.1} MB/s  measure has {:.1} times that",
        "procfs-core",
        megabytes / other,
        other / one
    );
    for (times, (name, _)) in awk.into_iter().zip(AWK) {
        let seconds = median(times);
        println!(
            "  {:<24}{:>9.1} MB/s  measure has {:.1} times that",
            name,
            megabytes / seconds,
            seconds / one
        );
    }
}

/// Times the smaps texts of the machine, one after the other and repeated; FILE is where they are put for awk.
pub fn compare(file: &str, rounds: usize) {
    let all = real_texts("smaps").concat();
    assert!(!all.is_empty(), "no smaps text can be read");
    let mappings = ours(&all)[0] as usize;
    for wanted in [50_000_usize, 100_000, 200_000, 300_000] {
        let text = all.repeat(wanted.div_ceil(mappings));
        if text.len() <= 268_435_456 {
            compared("real texts, repeated", &text, file, rounds);
        }
    }
}
