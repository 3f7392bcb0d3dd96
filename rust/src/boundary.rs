//! The exports of the static library, each as a safe function; nothing else of this crate is unsafe. c/jomukahu.h has
//! the same for C, and says what a caller owes.
#![allow(unsafe_code)]

use crate::refusal::Refusal;
use crate::source::Source;

/// The places of a list.
const PLACES: usize = 64;

/// The number that answers a wrong use of an export.
const WRONG_USE: u32 = 255;

/// A list as the library keeps it.
pub(crate) type Cells = [Place; PLACES];

#[repr(C)]
struct Answer {
    number: u32,
    line: u32,
    field: u32,
}

#[repr(C)]
#[derive(Default, Debug)]
pub(crate) struct Measure {
    pub mappings: u32,
    pub rss: u64,
    pub pss: u64,
    pub swap_pss: u64,
}

#[repr(C)]
#[derive(Clone, Copy, Default, Debug)]
pub(crate) struct Place {
    pub pid: i32,
    pub mappings: u32,
    pub headroom: u64,
    pub rss: u64,
    pub pss: u64,
    pub swap_pss: u64,
    pub noted: u32,
    pub state: u32,
    pub threads: u64,
    pub has_vmrss: u32,
    pub bounded: u32,
    pub vmrss: u64,
    pub address_space_unlimited: u32,
    pub open_files_unlimited: u32,
    pub address_space: u64,
    pub open_files: u64,
}

#[link(name = "capi", kind = "static")]
extern "C" {
    fn jomukahu_measure(
        first_form: u32,
        first: *const u8,
        first_length: usize,
        second_form: u32,
        second: *const u8,
        second_length: usize,
        measure: &mut Measure,
    ) -> Answer;
    fn jomukahu_new(places: *mut Place, length: usize) -> Answer;
    fn jomukahu_used(places: *const Place, length: usize, used: &mut u64) -> Answer;
    fn jomukahu_admit(
        limit: u64,
        places: *mut Place,
        length: usize,
        pid: i32,
        headroom: u64,
        measure: &Measure,
    ) -> Answer;
    fn jomukahu_remeasure(places: *mut Place, length: usize, pid: i32, measure: &Measure)
        -> Answer;
    fn jomukahu_note(
        places: *mut Place,
        length: usize,
        pid: i32,
        first_form: u32,
        first: *const u8,
        first_length: usize,
        second_form: u32,
        second: *const u8,
        second_length: usize,
    ) -> Answer;
    fn jomukahu_bound(
        places: *mut Place,
        length: usize,
        pid: i32,
        first_form: u32,
        first: *const u8,
        first_length: usize,
        second_form: u32,
        second: *const u8,
        second_length: usize,
    ) -> Answer;
    fn jomukahu_release(places: *mut Place, length: usize, pid: i32) -> Answer;
    fn jomukahu_look(
        places: *const Place,
        length: usize,
        pid: i32,
        job: &mut Place,
        charge: &mut u64,
    ) -> Answer;
    fn jomukahu_word(number: u32, letters: *mut u8, length: usize) -> usize;
}

/// `jomukahu_note` or `jomukahu_bound`.
type Reading = unsafe extern "C" fn(
    *mut Place,
    usize,
    i32,
    u32,
    *const u8,
    usize,
    u32,
    *const u8,
    usize,
) -> Answer;

impl Answer {
    fn told(self) -> Result<(), Refusal> {
        match self.number {
            0 => Ok(()),
            // Not from here: forms come from an enum of the two, cells are always 64, and only the library writes to
            // them, so that they are a list.
            WRONG_USE => panic!("jomukahu: the static library took a call for a wrong use"),
            number => Err(Refusal {
                number,
                line: self.line,
                field: self.field,
            }),
        }
    }
}

// SAFETY, of each call: a pointer is that of a slice, an array or a reference which is borrowed for the call, and the
// length behind it is its own; what is written to is borrowed mutably, so nothing that is read overlaps it. The library
// keeps no pointer.

pub(crate) fn measure(source: Source<'_>) -> Result<Measure, Refusal> {
    let mut measure = Measure::default();
    let Source { first, second } = source;
    unsafe {
        jomukahu_measure(
            first.form as u32,
            first.bytes.as_ptr(),
            first.bytes.len(),
            second.form as u32,
            second.bytes.as_ptr(),
            second.bytes.len(),
            &mut measure,
        )
    }
    .told()?;
    Ok(measure)
}

pub(crate) fn new() -> Cells {
    let mut cells = [Place::default(); PLACES];
    expected(unsafe { jomukahu_new(cells.as_mut_ptr(), PLACES) });
    cells
}

pub(crate) fn used(cells: &Cells) -> u64 {
    let mut used = 0;
    expected(unsafe { jomukahu_used(cells.as_ptr(), PLACES, &mut used) });
    used
}

pub(crate) fn admit(
    limit: u64,
    cells: &mut Cells,
    pid: i32,
    headroom: u64,
    measure: &Measure,
) -> Result<(), Refusal> {
    unsafe { jomukahu_admit(limit, cells.as_mut_ptr(), PLACES, pid, headroom, measure) }.told()
}

pub(crate) fn remeasure(cells: &mut Cells, pid: i32, measure: &Measure) -> Result<(), Refusal> {
    unsafe { jomukahu_remeasure(cells.as_mut_ptr(), PLACES, pid, measure) }.told()
}

pub(crate) fn note(cells: &mut Cells, pid: i32, source: Source<'_>) -> Result<(), Refusal> {
    read(jomukahu_note, cells, pid, source)
}

pub(crate) fn bound(cells: &mut Cells, pid: i32, source: Source<'_>) -> Result<(), Refusal> {
    read(jomukahu_bound, cells, pid, source)
}

pub(crate) fn release(cells: &mut Cells, pid: i32) -> Result<(), Refusal> {
    unsafe { jomukahu_release(cells.as_mut_ptr(), PLACES, pid) }.told()
}

pub(crate) fn look(cells: &Cells, pid: i32) -> Result<(Place, u64), Refusal> {
    let mut job = Place::default();
    let mut charge = 0;
    unsafe { jomukahu_look(cells.as_ptr(), PLACES, pid, &mut job, &mut charge) }.told()?;
    Ok((job, charge))
}

/// The word of a number; empty where that is no refusal's.
pub(crate) fn word(number: u32) -> String {
    let length = unsafe { jomukahu_word(number, [].as_mut_ptr(), 0) };
    let mut letters = vec![0; length];
    unsafe { jomukahu_word(number, letters.as_mut_ptr(), length) };
    String::from_utf8(letters).expect("the library's words are letters")
}

fn read(call: Reading, cells: &mut Cells, pid: i32, source: Source<'_>) -> Result<(), Refusal> {
    let Source { first, second } = source;
    unsafe {
        call(
            cells.as_mut_ptr(),
            PLACES,
            pid,
            first.form as u32,
            first.bytes.as_ptr(),
            first.bytes.len(),
            second.form as u32,
            second.bytes.as_ptr(),
            second.bytes.len(),
        )
    }
    .told()
}

/// Of a call that nothing refuses but a wrong use.
fn expected(answer: Answer) {
    answer.told().expect("new and used refuse nothing");
}
