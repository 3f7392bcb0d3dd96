//! Each call from Rust, each refusal that one can answer, and the texts of docs/ with what docs/ say of them.

mod texts;

use jomukahu::{
    measure, measure_joined, measure_recording, Bounds, Figures, LimitValue, Measure, Noted,
    PackingList, Part, Refusal, Source, View,
};
use texts::{recorded, BROKEN, CLEAN, LIMITS, SMAPS, STATUS};

/// 2 to the 56th: the most that a total or a charge may be.
const MOST: u64 = 72_057_594_037_927_936;

/// Mappings, Rss, Pss and SwapPss, or the refusal as it is shown.
type Measured = Result<(u32, u64, u64, u64), String>;

fn told(measured: Result<Measure, Refusal>) -> Measured {
    match measured {
        Ok(m) => {
            let Figures { rss, pss, swap_pss } = m.totals();
            Ok((m.mappings(), rss, pss, swap_pss))
        }
        Err(refusal) => Err(refusal.to_string()),
    }
}

fn refused(shown: &str) -> Measured {
    Err(shown.to_string())
}

/// What a call that answers nothing but a refusal answered, as it is shown; empty where it was accepted.
fn shown(answer: Result<(), Refusal>) -> String {
    answer.err().map_or(String::new(), |r| r.to_string())
}

fn sample() -> Measure {
    measure(Source::held(SMAPS)).unwrap()
}

fn of_text(text: &str) -> Measure {
    measure(Source::held(text.as_bytes())).unwrap()
}

/// A list without limit that has job 1, charged for the sample and 1000.
fn list_of_one() -> PackingList {
    let mut list = PackingList::new(u64::MAX);
    list.admit(1, 1000, sample()).unwrap();
    list
}

/// What is kept of that job.
const ONE: View = View {
    headroom: 1000,
    mappings: 2,
    totals: Figures {
        rss: 8192,
        pss: 7168,
        swap_pss: 2048,
    },
    charge: 10_216,
    noted: None,
    bounds: None,
};

/// A text with a line more.
fn and(text: &[u8], line: &str) -> Vec<u8> {
    [text, line.as_bytes()].concat()
}

#[test]
fn the_sample_is_measured_from_each_source() {
    let figures = Ok((2, 8192, 7168, 2048));
    assert_eq!(told(measure(Source::held(SMAPS))), figures);
    let recording = recorded(SMAPS, CLEAN);
    assert_eq!(told(measure(Source::recording(&recording))), figures);
    assert_eq!(told(measure_recording(&recording)), figures);
    assert_eq!(told(measure(Part::held(SMAPS).into())), figures);
}

#[test]
fn texts_are_joined_wherever_they_are_cut() {
    for at in 0..=SMAPS.len() {
        let (front, rest) = SMAPS.split_at(at);
        let recordings = (recorded(front, CLEAN), recorded(rest, CLEAN));
        for first in [Part::held(front), Part::recording(&recordings.0)] {
            for second in [Part::held(rest), Part::recording(&recordings.1)] {
                let figures = told(measure_joined(first, second));
                assert_eq!(figures, Ok((2, 8192, 7168, 2048)), "cut at {at}");
            }
        }
    }
}

#[test]
fn figures_of_a_join_add() {
    let (held, recording) = (Part::held(SMAPS), recorded(SMAPS, CLEAN));
    let figures = Ok((4, 16_384, 14_336, 4096));
    assert_eq!(told(measure_joined(held, held)), figures);
    let joined = Source::joined(held, Part::recording(&recording));
    assert_eq!(told(measure(joined)), figures);
}

#[test]
fn empty_texts_are_measured_zero() {
    assert_eq!(told(measure(Source::held(b""))), Ok((0, 0, 0, 0)));
    let recording = recorded(b"", CLEAN);
    assert_eq!(told(measure_recording(&recording)), Ok((0, 0, 0, 0)));
}

#[test]
fn broken_endings_break_a_measure() {
    let broken = recorded(SMAPS, BROKEN);
    let empty = recorded(b"", BROKEN);
    assert_eq!(
        told(measure_recording(&broken)),
        refused("refused 1 broken line 7")
    );
    assert_eq!(
        told(measure_recording(&empty)),
        refused("refused 1 broken line 1")
    );
    // Behind a broken first the second is not read, though its first line is refused 4 where it is.
    let orphan = Part::held(b"Rss: 4 kB\n");
    assert_eq!(
        told(measure_joined(Part::recording(&broken), orphan)),
        refused("refused 1 broken line 7")
    );
    assert_eq!(
        told(measure_joined(orphan, Part::recording(&broken))),
        refused("refused 4 orphan line 1")
    );
    assert_eq!(
        told(measure_joined(Part::held(SMAPS), Part::recording(&empty))),
        refused("refused 1 broken line 7")
    );
}

/// Recordings that break the record format, each in one way.
fn ill_made() -> Vec<Vec<u8>> {
    let good = recorded(SMAPS, CLEAN);
    let last = good.len() - 64;
    let changed = |at: usize, byte: u8| {
        let mut recording = good.clone();
        recording[at] = byte;
        recording
    };
    vec![
        vec![],
        good[..63].to_vec(),
        and(&good, "x"),
        changed(0, 63),
        changed(1, 1),
        changed(1, 3),
        changed(last + 1, 0),
        changed(last + 1, 3),
        changed(good.len() - 1, 1),
    ]
}

#[test]
fn ill_made_recordings_are_refused_first() {
    for recording in ill_made() {
        let part = Part::recording(&recording);
        let spool = refused("refused 22 spool");
        assert_eq!(told(measure_recording(&recording)), spool);
        assert_eq!(told(measure_joined(part, Part::held(SMAPS))), spool);
        assert_eq!(told(measure_joined(Part::held(b"Rss: 4\n"), part)), spool);
        let mut list = list_of_one();
        assert_eq!(shown(list.note(0, part.into())), "refused 22 spool");
        assert_eq!(shown(list.bound(2, part.into())), "refused 22 spool");
        assert_eq!(list.look(1), Ok(ONE));
    }
}

#[test]
fn refusals_of_a_measure() {
    let mapping = "1000-2000 r--p 0 0:0 0 \n";
    let under = |line: &str| mapping.to_string() + line;
    let long = |length: usize| under(&format!("Key: {}", "1".repeat(length - 5)));
    for (text, answer) in [
        ("Rss: 4 kB\n".to_string(), "4 orphan line 1"),
        ("1000-2000 r--p 0 0:0 0\n".to_string(), "5 short line 1"),
        (under("3000-4000 rw-p 00000000 00:00 0\n"), "5 short line 2"),
        ("x-2000 r--p 0 0:0 0 \n".to_string(), "6 figure line 1"),
        (under("Rss:4 kB\n"), "7 value line 2"),
        (under("Rss: -1 kB\n"), "7 value line 2"),
        (under("1-2 r 0 0:0 0 [stack:12\n"), "8 torn line 2"),
        (under("Size: 18014398509481984 kB\n"), "9 scale line 2"),
        (under(&format!("Pss: {}\n", MOST + 1)), "10 heavy line 2"),
        (
            under(&format!("Rss: {}\n{mapping}", MOST + 1)),
            "10 heavy line 3",
        ),
        (long(4096), "2 long line 2"),
    ] {
        let answer = Err(format!("refused {answer}"));
        assert_eq!(told(measure(Source::held(text.as_bytes()))), answer);
    }
    let not_utf8 = and(SMAPS, "").into_iter().chain([0xff, b'\n']);
    assert_eq!(
        told(measure(Source::held(&not_utf8.collect::<Vec<u8>>()))),
        refused("refused 1 broken line 7")
    );
    let most = under(&format!("Pss: {MOST}\n"));
    assert_eq!(
        told(measure(Source::held(most.as_bytes()))),
        Ok((1, 0, MOST, 0))
    );
}

/// A text of 268,435,456 bytes is measured, and one of a byte more is not.
#[test]
fn the_cap_on_texts() {
    let half = 134_217_728;
    let line = |head: &str, fill: &str| format!("{head}{}\n", fill.repeat(4095 - head.len()));
    let mut text = line("1000-2000 r--p 0 0:0 0 ", "/").into_bytes();
    text.resize(half, b'x');
    let foreign = line("VmFlags", " ");
    for cells in text[4096..].chunks_exact_mut(4096) {
        cells.copy_from_slice(foreign.as_bytes());
    }
    let first = Part::held(&text);
    assert_eq!(told(measure_joined(first, first)), Ok((2, 0, 0, 0)));
    let more = and(&text, "x");
    assert_eq!(
        told(measure_joined(first, Part::held(&more))),
        refused("refused 3 long line 65537")
    );
}

#[test]
fn the_sample_fills_a_list_to_the_last_byte() {
    let mut list = PackingList::new(10_216);
    assert_eq!(list.used(), 0);
    list.admit(7, 1000, sample()).unwrap();
    assert_eq!(list.used(), 10_216);
    assert_eq!(list.look(7), Ok(ONE));

    let mut tight = PackingList::new(10_215);
    let (refusal, handed) = tight.admit(7, 1000, sample()).unwrap_err();
    assert_eq!(refusal.to_string(), "refused 18 over");
    assert_eq!(
        (refusal.number(), refusal.line(), refusal.field()),
        (18, 0, 0)
    );
    assert_eq!(refusal.word(), "over");
    assert_eq!(tight.used(), 0);
    assert_eq!(told(Ok(handed)), Ok((2, 8192, 7168, 2048)));
}

#[test]
fn a_measure_that_is_handed_back_is_charged() {
    let mut list = PackingList::new(10_215);
    let (_, handed) = list.admit(7, 1000, sample()).unwrap_err();
    list.admit(7, 999, handed).unwrap();
    let (refusal, handed) = list.remeasure(8, sample()).unwrap_err();
    assert_eq!(refusal.to_string(), "refused 16 unknown");
    list.remeasure(7, handed).unwrap();
    assert_eq!(list.used(), 10_215);
}

#[test]
fn refused_admits() {
    let mut list = list_of_one();
    let mut measure = sample();
    for (pid, headroom, answer) in [
        (0, u64::MAX, "refused 14 pid"),
        (i32::MIN, 0, "refused 14 pid"),
        (1, u64::MAX, "refused 15 present"),
        (2, MOST - 9215, "refused 10 heavy"),
        (2, u64::MAX, "refused 10 heavy"),
    ] {
        let (refusal, handed) = list.admit(pid, headroom, measure).unwrap_err();
        assert_eq!(refusal.to_string(), answer);
        assert_eq!((list.used(), list.look(1)), (10_216, Ok(ONE)));
        measure = handed;
    }
    list.admit(2, MOST - 9216, measure).unwrap();
    assert_eq!(list.used(), MOST + 10_216);
}

#[test]
fn a_list_has_64_places() {
    let mut list = PackingList::new(65);
    for pid in 1..=64 {
        list.admit(pid, 1, of_text("")).unwrap();
    }
    assert_eq!(list.used(), 64);
    // Of the refusals that hold, 10 comes before 17, and 17 before 18.
    for (headroom, answer) in [(MOST + 1, "refused 10 heavy"), (2, "refused 17 packed")] {
        let (refusal, _) = list.admit(65, headroom, of_text("")).unwrap_err();
        assert_eq!(refusal.to_string(), answer);
    }
    list.release(9).unwrap();
    assert_eq!(list.used(), 63);
    list.admit(65, 2, of_text("")).unwrap();
    assert_eq!(list.used(), 65);
    let (refusal, _) = list.admit(9, 0, of_text("")).unwrap_err();
    assert_eq!(refusal.to_string(), "refused 17 packed");
}

#[test]
fn a_remeasure_keeps_the_rest_and_tests_no_limit() {
    let mut list = PackingList::new(10_216);
    list.admit(1, 1000, sample()).unwrap();
    list.note(1, Source::held(STATUS)).unwrap();
    list.bound(1, Source::held(LIMITS)).unwrap();
    let before = list.look(1).unwrap();
    list.remeasure(
        1,
        of_text("1-2 r 0 0:0 0 \nRss: 3\nPss: 20000\nSwapPss: 5\n"),
    )
    .unwrap();
    assert_eq!(list.used(), 21_005);
    let grown = View {
        mappings: 1,
        totals: Figures {
            rss: 3,
            pss: 20_000,
            swap_pss: 5,
        },
        charge: 21_005,
        ..before
    };
    assert_eq!(list.look(1), Ok(grown));
    let heavy = |pss| of_text(&format!("1-2 r 0 0:0 0 \nPss: {pss}\n"));
    for (pid, answer) in [
        (0, "refused 14 pid"),
        (2, "refused 16 unknown"),
        (1, "refused 10 heavy"),
    ] {
        let (refusal, handed) = list.remeasure(pid, heavy(MOST - 999)).unwrap_err();
        assert_eq!(refusal.to_string(), answer);
        assert_eq!(told(Ok(handed)), Ok((1, 0, MOST - 999, 0)));
        assert_eq!(list.look(1), Ok(grown));
    }
    list.remeasure(1, heavy(MOST - 1000)).unwrap();
    assert_eq!(list.used(), MOST);
}

#[test]
fn notes_are_kept() {
    let mut list = list_of_one();
    let noted = |state, threads, vmrss| {
        let noted = Some(Noted {
            state,
            threads,
            vmrss,
        });
        Ok(View { noted, ..ONE })
    };
    list.note(1, Source::held(STATUS)).unwrap();
    assert_eq!(list.look(1), noted('R', 1, None));
    let more = b"State: S (sleeping)\nThreads: 18446744073709551615\nVmRSS: 12 kB\n";
    list.note(1, Source::joined(Part::held(STATUS), Part::held(more)))
        .unwrap();
    assert_eq!(list.look(1), noted('S', u64::MAX, Some(12)));
    let zero = recorded(&and(STATUS, "VmRSS: 0 kB\n"), CLEAN);
    list.note(1, Source::recording(&zero)).unwrap();
    assert_eq!(list.look(1), noted('R', 1, Some(0)));
    for state in "RSDZTtXxKWPI".chars() {
        let text = and(STATUS, &format!("State: {state}\n"));
        list.note(1, Source::held(&text)).unwrap();
        assert_eq!(list.look(1), noted(state, 1, None));
    }
}

#[test]
fn refused_notes() {
    let mut list = list_of_one();
    list.note(1, Source::held(&and(STATUS, "VmRSS: 12 kB\n")))
        .unwrap();
    let before = list.look(1);
    let groups = |count: usize| format!("Groups:{}\n", " 1".repeat(count));
    let long = format!("Name: {}", "a".repeat(4090));
    for (more, answer) in [
        ("Name\n", "refused 5 short line 21"),
        ("Uid: 1 2 3\n", "refused 5 short line 21 field 12"),
        ("VmRSS: 12kB\n", "refused 6 figure line 21 field 28"),
        (groups(129).as_str(), "refused 12 full line 21 field 18"),
        (long.as_str(), "refused 2 long line 21"),
        ("State: Q\nPid: 2\n", "refused 13 state"),
        ("State:\n", "refused 13 state"),
        ("Pid: 2\n", "refused 14 pid"),
    ] {
        let text = and(STATUS, more);
        assert_eq!(shown(list.note(1, Source::held(&text))), answer);
        assert_eq!(list.look(1), before, "{answer}");
    }
    let headless = &STATUS[b"Name: a\n".len()..];
    for (source, answer) in [
        (Source::held(headless), "refused 11 absent line 19 field 1"),
        (Source::held(b""), "refused 11 absent field 1"),
        (
            Source::recording(&recorded(STATUS, BROKEN)),
            "refused 1 broken line 21",
        ),
        (
            Source::recording(&recorded(&STATUS[..9], BROKEN)),
            "refused 1 broken line 2",
        ),
    ] {
        assert_eq!(shown(list.note(1, source)), answer);
        assert_eq!(list.look(1), before, "{answer}");
    }
    // Where the pid is refused the text is not read.
    for (pid, answer) in [(-1, "refused 14 pid"), (2, "refused 16 unknown")] {
        assert_eq!(shown(list.note(pid, Source::held(headless))), answer);
    }
    let room = and(STATUS, &groups(128));
    assert_eq!(shown(list.note(1, Source::held(&room))), "");
}

#[test]
fn bounds_are_kept() {
    let mut list = list_of_one();
    let bounds = |address_space, open_files| {
        let bounds = Some(Bounds {
            address_space,
            open_files,
        });
        Ok(View { bounds, ..ONE })
    };
    list.bound(1, Source::held(LIMITS)).unwrap();
    assert_eq!(
        list.look(1),
        bounds(LimitValue::Unlimited, LimitValue::Value(1024))
    );
    let more = b"Max address space 18446744073709551615 6 x\nMax open files unlimited 6 x\n";
    list.bound(1, Source::joined(Part::held(LIMITS), Part::held(more)))
        .unwrap();
    assert_eq!(
        list.look(1),
        bounds(LimitValue::Value(u64::MAX), LimitValue::Unlimited)
    );
    // A broken ending ends the text, and refuses nothing by itself.
    list.bound(1, Source::recording(&recorded(LIMITS, BROKEN)))
        .unwrap();
    assert_eq!(
        list.look(1),
        bounds(LimitValue::Unlimited, LimitValue::Value(1024))
    );
}

#[test]
fn refused_bounds() {
    let mut list = list_of_one();
    list.bound(1, Source::held(LIMITS)).unwrap();
    let before = list.look(1);
    let inside = LIMITS.len() - 2;
    let long = "x".repeat(4096);
    for (source, answer) in [
        (Source::held(b""), "refused 11 absent field 1"),
        (
            Source::held(&and(LIMITS, "a b\n")),
            "refused 5 short line 18",
        ),
        (
            Source::held(&and(LIMITS, "Max cpu time -1 6 x\n")),
            "refused 6 figure line 18 field 1",
        ),
        (Source::held(&and(LIMITS, &long)), "refused 2 long line 18"),
        (
            Source::recording(&recorded(&LIMITS[..inside], BROKEN)),
            "refused 11 absent line 16 field 16",
        ),
    ] {
        assert_eq!(shown(list.bound(1, source)), answer);
        assert_eq!(list.look(1), before, "{answer}");
    }
    for (pid, answer) in [(0, "refused 14 pid"), (2, "refused 16 unknown")] {
        assert_eq!(shown(list.bound(pid, Source::held(b""))), answer);
    }
}

#[test]
fn a_released_job_is_forgotten() {
    let mut list = list_of_one();
    list.note(1, Source::held(STATUS)).unwrap();
    list.bound(1, Source::held(LIMITS)).unwrap();
    for (pid, answer) in [(0, "refused 14 pid"), (2, "refused 16 unknown")] {
        assert_eq!(shown(list.release(pid)), answer);
        assert_eq!(shown(list.look(pid).map(|_| ())), answer);
    }
    assert_eq!(list.used(), 10_216);
    list.release(1).unwrap();
    assert_eq!(list.used(), 0);
    assert_eq!(shown(list.look(1).map(|_| ())), "refused 16 unknown");
    assert_eq!(shown(list.release(1)), "refused 16 unknown");
    list.admit(1, 1000, sample()).unwrap();
    assert_eq!(list.look(1), Ok(ONE));
}

#[test]
fn a_refusal_is_an_error() {
    let refusal = measure(Source::held(b"Rss: 4 kB\n")).unwrap_err();
    let error: Box<dyn std::error::Error> = Box::new(refusal);
    assert_eq!(error.to_string(), "refused 4 orphan line 1");
}
