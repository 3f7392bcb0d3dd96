//! The readings of status and limits, each text by itself: by the library and by procfs-core.

use crate::timing::{median, real_texts, timed};
use procfs_core::process::{LimitValue, Limits, Status};
use procfs_core::FromBufRead;
use std::hint::black_box;

unsafe extern "C" {
    fn jomukahu_timed_status(text: *const u8, len: usize, times: u32) -> u64;
    fn jomukahu_timed_limits(text: *const u8, len: usize, times: u32) -> u64;
}

/// How often a text is read in a round.
const TIMES: u32 = 200;

/// A reading: the file that it is of, and the figure of a text that is read so often, by the library, into one
/// record, and by procfs-core, which makes a record of its own each time.
struct Reading {
    file: &'static str,
    ours: fn(&[u8]) -> u64,
    theirs: fn(&[u8]) -> u64,
}

/// What the last of so many readings answers.
fn often(read: impl Fn() -> u64) -> u64 {
    let mut figure = 0;
    for _ in 0..TIMES {
        figure = black_box(read());
    }
    figure
}

const READINGS: [Reading; 2] = [
    Reading {
        file: "status",
        // SAFETY: the pointer is that of a slice, of the length handed over.
        ours: |text| unsafe { jomukahu_timed_status(text.as_ptr(), text.len(), TIMES) },
        theirs: |text| {
            often(|| {
                let status = Status::from_buf_read(text).expect("procfs-core reads the text");
                status.threads
            })
        },
    },
    Reading {
        file: "limits",
        // SAFETY: the pointer is that of a slice, of the length handed over.
        ours: |text| unsafe { jomukahu_timed_limits(text.as_ptr(), text.len(), TIMES) },
        theirs: |text| {
            often(|| {
                let limits = Limits::from_buf_read(text).expect("procfs-core reads the text");
                match limits.max_open_files.soft_limit {
                    LimitValue::Unlimited => u64::MAX,
                    LimitValue::Value(n) => n,
                }
            })
        },
    },
];

/// The figures of all texts, added up.
fn read_all(texts: &[Vec<u8>], read: fn(&[u8]) -> u64) -> u64 {
    texts
        .iter()
        .fold(0, |sum, text| sum.wrapping_add(read(text)))
}

fn compared(reading: &Reading, rounds: usize) {
    let texts = real_texts(reading.file);
    assert!(!texts.is_empty(), "no {} text can be read", reading.file);
    let (mut one, mut other) = (Vec::new(), Vec::new());
    for _ in 0..rounds {
        let (seconds, sum) = timed(|| read_all(&texts, reading.ours));
        one.push(seconds);
        let (seconds, same) = timed(|| read_all(&texts, reading.theirs));
        other.push(seconds);
        assert_eq!(sum, same, "{}", reading.file);
    }
    let bytes: usize = texts.iter().map(Vec::len).sum();
    let megabytes = bytes as f64 * f64::from(TIMES) / 1e6;
    let (one, other) = (median(one), median(other));
    let name = format!("read_{}", reading.file);
    println!(
        "real texts of {}: {}, {bytes} bytes, each read {TIMES} times",
        reading.file,
        texts.len()
    );
    println!("  {name:<24}{:>9.1} MB/s", megabytes / one);
    println!(
        "  {:<24}{:>9.1} MB/s  {name} has {:.1} times that",
        "procfs-core",
        megabytes / other,
        other / one
    );
}

/// Times the texts of status and limits of the machine.
pub fn compare(rounds: usize) {
    for reading in &READINGS {
        compared(reading, rounds);
    }
}
