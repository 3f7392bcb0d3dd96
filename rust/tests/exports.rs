//! The exports as a C caller has them: what is written and what is not, cells that are no list, wrong lengths and forms.

mod texts;

use std::mem::size_of;
use texts::{recorded, BROKEN, CLEAN, LIMITS, SMAPS, STATUS};

#[repr(C)]
#[derive(Clone, Copy, PartialEq, Eq, Debug)]
struct Answer {
    number: u32,
    line: u32,
    field: u32,
}

#[repr(C)]
#[derive(Clone, Copy, PartialEq, Eq, Debug, Default)]
struct Measure {
    mappings: u32,
    rss: u64,
    pss: u64,
    swap_pss: u64,
}

#[repr(C)]
#[derive(Clone, Copy, PartialEq, Eq, Debug, Default)]
struct Place {
    pid: i32,
    mappings: u32,
    headroom: u64,
    rss: u64,
    pss: u64,
    swap_pss: u64,
    noted: u32,
    state: u32,
    threads: u64,
    has_vmrss: u32,
    bounded: u32,
    vmrss: u64,
    address_space_unlimited: u32,
    open_files_unlimited: u32,
    address_space: u64,
    open_files: u64,
}

/// The exports, with what is the same for all of these tests: slices in place of pointers and lengths.
mod raw {
    use super::{Answer, Measure, Place};

    #[link(name = "capi", kind = "static")]
    extern "C" {
        fn jomukahu_measure(
            first_form: u32,
            first: *const u8,
            first_length: usize,
            second_form: u32,
            second: *const u8,
            second_length: usize,
            measure: *mut Measure,
        ) -> Answer;
        fn jomukahu_new(places: *mut Place, length: usize) -> Answer;
        fn jomukahu_used(places: *const Place, length: usize, used: *mut u64) -> Answer;
        fn jomukahu_admit(
            limit: u64,
            places: *mut Place,
            length: usize,
            pid: i32,
            headroom: u64,
            measure: *const Measure,
        ) -> Answer;
        fn jomukahu_remeasure(
            places: *mut Place,
            length: usize,
            pid: i32,
            measure: *const Measure,
        ) -> Answer;
        fn jomukahu_note(
            places: *mut Place,
            length: usize,
            pid: i32,
            first_form: u32,
            first: *const u8,
            first_length: usize,
            second_form: u32,
            second: *const u8,
            second_length: usize,
        ) -> Answer;
        fn jomukahu_bound(
            places: *mut Place,
            length: usize,
            pid: i32,
            first_form: u32,
            first: *const u8,
            first_length: usize,
            second_form: u32,
            second: *const u8,
            second_length: usize,
        ) -> Answer;
        fn jomukahu_release(places: *mut Place, length: usize, pid: i32) -> Answer;
        fn jomukahu_look(
            places: *const Place,
            length: usize,
            pid: i32,
            job: *mut Place,
            charge: *mut u64,
        ) -> Answer;
        fn jomukahu_word(number: u32, letters: *mut u8, length: usize) -> usize;
    }

    /// A form, and bytes of that form.
    pub type Part<'a> = (u32, &'a [u8]);

    // SAFETY, of each call: all pointers are those of slices and references, with their own lengths.

    pub fn measure(first: Part, second: Part, measure: &mut Measure) -> Answer {
        let ((f, first), (s, second)) = (first, second);
        unsafe {
            jomukahu_measure(
                f,
                first.as_ptr(),
                first.len(),
                s,
                second.as_ptr(),
                second.len(),
                measure,
            )
        }
    }

    pub fn new(places: &mut [Place]) -> Answer {
        unsafe { jomukahu_new(places.as_mut_ptr(), places.len()) }
    }

    pub fn used(places: &[Place], used: &mut u64) -> Answer {
        unsafe { jomukahu_used(places.as_ptr(), places.len(), used) }
    }

    pub fn admit(
        limit: u64,
        places: &mut [Place],
        pid: i32,
        room: u64,
        measure: &Measure,
    ) -> Answer {
        unsafe { jomukahu_admit(limit, places.as_mut_ptr(), places.len(), pid, room, measure) }
    }

    pub fn remeasure(places: &mut [Place], pid: i32, measure: &Measure) -> Answer {
        unsafe { jomukahu_remeasure(places.as_mut_ptr(), places.len(), pid, measure) }
    }

    pub fn note(places: &mut [Place], pid: i32, first: Part, second: Part) -> Answer {
        let ((f, first), (s, second)) = (first, second);
        unsafe {
            jomukahu_note(
                places.as_mut_ptr(),
                places.len(),
                pid,
                f,
                first.as_ptr(),
                first.len(),
                s,
                second.as_ptr(),
                second.len(),
            )
        }
    }

    pub fn bound(places: &mut [Place], pid: i32, first: Part, second: Part) -> Answer {
        let ((f, first), (s, second)) = (first, second);
        unsafe {
            jomukahu_bound(
                places.as_mut_ptr(),
                places.len(),
                pid,
                f,
                first.as_ptr(),
                first.len(),
                s,
                second.as_ptr(),
                second.len(),
            )
        }
    }

    pub fn release(places: &mut [Place], pid: i32) -> Answer {
        unsafe { jomukahu_release(places.as_mut_ptr(), places.len(), pid) }
    }

    pub fn look(places: &[Place], pid: i32, job: &mut Place, charge: &mut u64) -> Answer {
        unsafe { jomukahu_look(places.as_ptr(), places.len(), pid, job, charge) }
    }

    pub fn word(number: u32, letters: &mut [u8]) -> usize {
        unsafe { jomukahu_word(number, letters.as_mut_ptr(), letters.len()) }
    }
}

/// 2 to the 56th: the most that a charge may be.
const MOST: u64 = 72_057_594_037_927_936;

const OK: Answer = plain(0);
const WRONG_USE: Answer = plain(255);
const NOTHING: raw::Part = (1, b"");

const SAMPLE: Measure = Measure {
    mappings: 2,
    rss: 8192,
    pss: 7168,
    swap_pss: 2048,
};

/// What no call leaves in a cell.
const JUNK: Place = Place {
    pid: -7,
    mappings: 7,
    headroom: 7,
    rss: 7,
    pss: 7,
    swap_pss: 7,
    noted: 7,
    state: 0xd800,
    threads: 7,
    has_vmrss: 7,
    bounded: 7,
    vmrss: 7,
    address_space_unlimited: 7,
    open_files_unlimited: 7,
    address_space: 7,
    open_files: 7,
};

const fn plain(number: u32) -> Answer {
    Answer {
        number,
        line: 0,
        field: 0,
    }
}

/// The job 1, charged 10216.
fn job() -> Place {
    Place {
        pid: 1,
        mappings: 2,
        headroom: 1000,
        rss: 8192,
        pss: 7168,
        swap_pss: 2048,
        ..Place::default()
    }
}

/// Another job, charged the same.
fn other(pid: i32) -> Place {
    Place { pid, ..job() }
}

/// A list that has that job alone, on its third place.
fn list() -> [Place; 64] {
    let mut places = [Place::default(); 64];
    places[2] = job();
    places
}

/// All calls on a list, with what each answers to the cells, given that what it would add is good. `look` and `used` are
/// also asked whether they leave zeros.
fn answers(places: &mut [Place]) -> [Answer; 7] {
    let (mut sum, mut seen, mut charge) = (7, JUNK, 7);
    let answers = [
        raw::used(places, &mut sum),
        raw::look(places, 1, &mut seen, &mut charge),
        raw::admit(u64::MAX, places, 2, 0, &SAMPLE),
        raw::remeasure(places, 1, &SAMPLE),
        raw::note(places, 1, (1, STATUS), NOTHING),
        raw::bound(places, 1, (1, LIMITS), NOTHING),
        raw::release(places, 1),
    ];
    if answers[0] != OK {
        assert_eq!(sum, 0);
    }
    if answers[1] != OK {
        assert_eq!((seen, charge), (Place::default(), 0));
    }
    answers
}

/// Cells that are no list: each call says so, and writes nothing.
fn is_no_list(places: &[Place], what: &str) {
    let mut cells = places.to_vec();
    assert_eq!(answers(&mut cells), [WRONG_USE; 7], "{what}");
    assert_eq!(cells, places, "{what}");
}

#[test]
fn structs_have_the_sizes_of_the_header() {
    assert_eq!(size_of::<Answer>(), 12);
    assert_eq!(size_of::<Measure>(), 32);
    assert_eq!(size_of::<Place>(), 96);
}

#[test]
fn other_than_64_cells_are_no_list() {
    let cells = [&list()[..], &[Place::default(); 64]].concat();
    for length in [0, 1, 3, 63, 65, 128] {
        is_no_list(&cells[..length], &format!("{length} cells"));
        let mut junk = vec![JUNK; length];
        assert_eq!(raw::new(&mut junk), WRONG_USE, "{length} cells");
        assert_eq!(junk, vec![JUNK; length]);
    }
}

#[test]
fn cells_that_are_no_list() {
    let with = |place: Place| {
        let mut places = list();
        places[63] = place;
        places
    };
    let two = other(2);
    let noted = |state| Place {
        noted: 1,
        state,
        ..two
    };
    is_no_list(&with(job()), "a pid twice");
    is_no_list(&with(Place { pid: -1, ..two }), "a pid below 0");
    is_no_list(
        &with(Place {
            pid: i32::MIN,
            ..two
        }),
        "the least pid",
    );
    let heavy = |headroom, pss, swap_pss| Place {
        headroom,
        pss,
        swap_pss,
        ..two
    };
    is_no_list(&with(heavy(MOST + 1, 0, 0)), "a heavy headroom");
    is_no_list(&with(heavy(1, MOST - 1, 1)), "a heavy charge");
    is_no_list(&with(heavy(u64::MAX, 1, 0)), "a charge above 64 bits");
    for state in [0, 'Q' as u32, 'S' as u32 + 256, 0xd800, u32::MAX] {
        is_no_list(&with(noted(state)), "a state that is no process state");
    }

    let states = "RSDZTtXxKWPI".chars().map(|letter| noted(letter as u32));
    let others = [
        heavy(1, MOST - 2, 1),
        Place {
            state: 0xd800,
            ..two
        },
        Place { pid: 0, ..JUNK },
    ];
    for good in states.chain(others) {
        let mut places = with(good);
        places[0] = Place {
            pid: 3,
            ..Place::default()
        };
        let admitted = if good.pid == 2 { plain(15) } else { OK };
        assert_eq!(
            answers(&mut places),
            [OK, OK, admitted, OK, OK, OK, OK],
            "{good:?}"
        );
    }
}

#[test]
fn an_accepted_call_leaves_zeros_where_nothing_is_kept() {
    let mut places = list();
    places[0] = Place { pid: 0, ..JUNK };
    places[1] = Place {
        noted: 7,
        state: 'S' as u32,
        threads: 7,
        vmrss: 7,
        open_files_unlimited: 7,
        address_space: 7,
        ..other(2)
    };
    places[3] = Place {
        state: 7,
        has_vmrss: 7,
        bounded: 7,
        address_space_unlimited: 7,
        address_space: 7,
        open_files: 7,
        ..other(3)
    };
    assert_eq!(raw::release(&mut places, 1), OK);
    let mut after = [Place::default(); 64];
    after[1] = Place {
        noted: 1,
        state: 'S' as u32,
        threads: 7,
        ..other(2)
    };
    after[3] = Place {
        bounded: 1,
        address_space_unlimited: 1,
        open_files: 7,
        ..other(3)
    };
    assert_eq!(places, after);
}

#[test]
fn forms_are_1_and_2() {
    let bad: &[u8] = b"no recording";
    for form in [0, 3, 255, u32::MAX] {
        let parts = [
            ((form, SMAPS), NOTHING),
            ((1, SMAPS), (form, bad)),
            ((2, bad), (form, bad)),
            ((form, bad), (2, bad)),
        ];
        for (first, second) in parts {
            let mut measure = SAMPLE;
            assert_eq!(raw::measure(first, second, &mut measure), WRONG_USE);
            assert_eq!(measure, Measure::default());
            let mut places = list();
            assert_eq!(raw::note(&mut places, 1, first, second), WRONG_USE);
            assert_eq!(raw::bound(&mut places, 1, first, second), WRONG_USE);
            assert_eq!(places, list());
        }
    }
}

#[test]
fn recordings_are_judged_before_cells_and_pids() {
    let bad: raw::Part = (2, b"no recording");
    for (first, second) in [(bad, NOTHING), ((1, b"x"), bad), (bad, bad)] {
        let mut measure = SAMPLE;
        assert_eq!(raw::measure(first, second, &mut measure), plain(22));
        assert_eq!(measure, Measure::default());
        for (length, pid) in [(64, 0), (63, 1)] {
            let mut places = list()[..length].to_vec();
            assert_eq!(raw::note(&mut places, pid, first, second), plain(22));
            assert_eq!(raw::bound(&mut places, pid, first, second), plain(22));
            assert_eq!(places, list()[..length]);
        }
    }
    let mut short = list()[..63].to_vec();
    assert_eq!(raw::note(&mut short, 0, NOTHING, NOTHING), WRONG_USE);
    assert_eq!(raw::release(&mut short, 0), WRONG_USE);
}

#[test]
fn measures() {
    let clean = recorded(SMAPS, CLEAN);
    let broken = recorded(SMAPS, BROKEN);
    let mut measure = Measure::default();
    for (first, second) in [
        ((1, SMAPS), NOTHING),
        ((2, &clean[..]), NOTHING),
        (NOTHING, (2, &clean[..])),
    ] {
        assert_eq!(raw::measure(first, second, &mut measure), OK);
        assert_eq!(measure, SAMPLE);
    }
    let refused = |number, line| Answer {
        number,
        line,
        field: 0,
    };
    for (first, second, answer) in [
        ((2, &broken[..]), NOTHING, refused(1, 7)),
        ((1, SMAPS), (1, &b"Rss: x\n"[..]), refused(7, 7)),
    ] {
        measure = SAMPLE;
        assert_eq!(raw::measure(first, second, &mut measure), answer);
        assert_eq!(measure, Measure::default());
    }
}

#[test]
fn a_new_list_is_zeros() {
    let mut places = [JUNK; 64];
    assert_eq!(raw::new(&mut places), OK);
    assert_eq!(places, [Place::default(); 64]);
    let mut sum = 7;
    assert_eq!(raw::used(&places, &mut sum), OK);
    assert_eq!(sum, 0);
}

#[test]
fn an_admit_writes_the_first_free_place() {
    let mut places = list();
    for (pid, at) in [(5, 0), (6, 1), (7, 3)] {
        assert_eq!(raw::admit(u64::MAX, &mut places, pid, 1000, &SAMPLE), OK);
        assert_eq!(places[at], other(pid));
    }
    assert_eq!(places[2], job());
    assert_eq!(places[4..], [Place::default(); 60]);
    let mut sum = 0;
    assert_eq!(raw::used(&places, &mut sum), OK);
    assert_eq!(sum, 40_864);
}

#[test]
fn refused_charges_write_nothing() {
    let mut places = list();
    let heavy = Measure {
        pss: MOST,
        ..SAMPLE
    };
    for (limit, pid, headroom, measure, number) in [
        (0, 0, u64::MAX, heavy, 14),
        (0, -1, 0, SAMPLE, 14),
        (0, 1, u64::MAX, heavy, 15),
        (0, 2, u64::MAX, SAMPLE, 10),
        (0, 2, 0, heavy, 10),
        (20_431, 2, 1000, SAMPLE, 18),
    ] {
        let answer = raw::admit(limit, &mut places, pid, headroom, &measure);
        assert_eq!(answer, plain(number));
        assert_eq!(places, list());
    }
    for (pid, measure, number) in [(0, SAMPLE, 14), (2, heavy, 16), (1, heavy, 10)] {
        assert_eq!(raw::remeasure(&mut places, pid, &measure), plain(number));
        assert_eq!(places, list());
    }
    assert_eq!(raw::admit(20_432, &mut places, 2, 1000, &SAMPLE), OK);

    let mut full = [Place::default(); 64];
    for (pid, place) in (1..).zip(&mut full) {
        place.pid = pid;
    }
    let before = full;
    assert_eq!(raw::admit(0, &mut full, 65, 1, &SAMPLE), plain(17));
    assert_eq!(full, before);
}

#[test]
fn a_remeasure_writes_the_figures() {
    let mut places = list();
    let measure = Measure {
        mappings: 1,
        rss: 2,
        pss: 3,
        swap_pss: 4,
    };
    assert_eq!(raw::remeasure(&mut places, 1, &measure), OK);
    let mut after = list();
    after[2] = Place {
        mappings: 1,
        rss: 2,
        pss: 3,
        swap_pss: 4,
        ..job()
    };
    assert_eq!(places, after);
}

#[test]
fn note_and_bound_write_what_they_keep() {
    let mut places = list();
    let more: raw::Part = (1, b"VmRSS: 12 kB\n");
    assert_eq!(raw::note(&mut places, 1, (1, STATUS), more), OK);
    let mut after = list();
    after[2] = Place {
        noted: 1,
        state: 'R' as u32,
        threads: 1,
        has_vmrss: 1,
        vmrss: 12,
        ..job()
    };
    assert_eq!(places, after);
    assert_eq!(raw::bound(&mut places, 1, (1, LIMITS), NOTHING), OK);
    after[2] = Place {
        bounded: 1,
        address_space_unlimited: 1,
        open_files: 1024,
        ..after[2]
    };
    assert_eq!(places, after);

    let (mut seen, mut charge) = (JUNK, 7);
    assert_eq!(raw::look(&places, 1, &mut seen, &mut charge), OK);
    assert_eq!((seen, charge), (after[2], 10_216));

    let refused = |number, line, field| Answer {
        number,
        line,
        field,
    };
    for (pid, answer) in [(0, plain(14)), (2, plain(16)), (1, refused(11, 0, 1))] {
        assert_eq!(raw::note(&mut places, pid, NOTHING, NOTHING), answer);
        assert_eq!(raw::bound(&mut places, pid, NOTHING, NOTHING), answer);
        assert_eq!(places, after);
    }
    let wrong: raw::Part = (1, b"VmRSS: x\n");
    let answer = raw::note(&mut places, 1, (1, STATUS), wrong);
    assert_eq!(answer, refused(6, 21, 28));
    let other: raw::Part = (1, b"Pid: 2\n");
    assert_eq!(raw::note(&mut places, 1, (1, STATUS), other), plain(14));
    let none: raw::Part = (1, b"State:\n");
    assert_eq!(raw::note(&mut places, 1, (1, STATUS), none), plain(13));
    assert_eq!(places, after);
}

#[test]
fn a_release_frees_the_place() {
    let mut places = list();
    for (pid, number) in [(0, 14), (2, 16)] {
        assert_eq!(raw::release(&mut places, pid), plain(number));
        assert_eq!(places, list());
        let (mut seen, mut charge) = (JUNK, 7);
        let answer = raw::look(&places, pid, &mut seen, &mut charge);
        assert_eq!(answer, plain(number));
        assert_eq!((seen, charge), (Place::default(), 0));
    }
    assert_eq!(raw::release(&mut places, 1), OK);
    assert_eq!(places, [Place::default(); 64]);
}

#[test]
fn words_of_all_numbers() {
    let words = [
        "broken", "long", "long", "orphan", "short", "figure", "value", "torn", "scale", "heavy",
        "absent", "full", "state", "pid", "present", "unknown", "packed", "over", "sum", "bracket",
        "key", "spool",
    ];
    for (number, word) in (1..).zip(words) {
        for room in 0..=8 {
            let mut letters = [b'.'; 9];
            assert_eq!(raw::word(number, &mut letters[..room]), word.len());
            let mut expected = [b'.'; 9];
            let fits = room.min(word.len());
            expected[..fits].copy_from_slice(&word.as_bytes()[..fits]);
            assert_eq!(letters, expected, "{word} in {room}");
        }
    }
    for number in [0, 23, 255, 256, u32::MAX] {
        let mut letters = [b'.'; 9];
        assert_eq!(raw::word(number, &mut letters), 0);
        assert_eq!(letters, [b'.'; 9]);
    }
}
