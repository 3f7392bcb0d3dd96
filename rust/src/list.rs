//! The packing list.

use crate::boundary::{self, Cells, Place};
use crate::measure::{Figures, Measure};
use crate::refusal::Refusal;
use crate::source::Source;

/// A list of at most 64 jobs, known by their pids, that share a machine of so many bytes.
///
/// A refused call leaves the list as it is. It can't be copied, as a job is charged in one list only.
#[derive(Debug)]
pub struct PackingList {
    limit: u64,
    cells: Cells,
}

/// What the list keeps of a job. Its charge is Pss, SwapPss and headroom together.
#[derive(Clone, Copy, PartialEq, Eq, Debug)]
pub struct View {
    pub headroom: u64,
    pub mappings: u32,
    pub totals: Figures,
    pub charge: u64,
    pub noted: Option<Noted>,
    pub bounds: Option<Bounds>,
}

/// What note keeps of a status text: the state's letter, and figures as they stand there.
#[derive(Clone, Copy, PartialEq, Eq, Debug)]
pub struct Noted {
    pub state: char,
    pub threads: u64,
    pub vmrss: Option<u64>,
}

/// What bound keeps of a limits text: two soft limits.
#[derive(Clone, Copy, PartialEq, Eq, Debug)]
pub struct Bounds {
    pub address_space: LimitValue,
    pub open_files: LimitValue,
}

/// How far a process may go, or that there is no bound.
#[derive(Clone, Copy, PartialEq, Eq, Debug)]
pub enum LimitValue {
    Unlimited,
    Value(u64),
}

impl PackingList {
    /// A list with 64 free places and this limit in bytes.
    pub fn new(limit: u64) -> PackingList {
        PackingList {
            limit,
            cells: boundary::new(),
        }
    }

    /// The sum of all charges.
    pub fn used(&self) -> u64 {
        boundary::used(&self.cells)
    }

    /// Lets a job in, charged for the measure and the headroom. A refusal hands the measure back.
    pub fn admit(
        &mut self,
        pid: i32,
        headroom: u64,
        measure: Measure,
    ) -> Result<(), (Refusal, Measure)> {
        boundary::admit(self.limit, &mut self.cells, pid, headroom, &measure.cells)
            .map_err(|refusal| (refusal, measure))
    }

    /// Charges a job for this measure instead; the limit is not tested. A refusal hands the measure back.
    pub fn remeasure(&mut self, pid: i32, measure: Measure) -> Result<(), (Refusal, Measure)> {
        boundary::remeasure(&mut self.cells, pid, &measure.cells)
            .map_err(|refusal| (refusal, measure))
    }

    /// Keeps what the text of a /proc/PID/status says of a job.
    pub fn note(&mut self, pid: i32, source: Source<'_>) -> Result<(), Refusal> {
        boundary::note(&mut self.cells, pid, source)
    }

    /// Keeps what the text of a /proc/PID/limits says of a job.
    pub fn bound(&mut self, pid: i32, source: Source<'_>) -> Result<(), Refusal> {
        boundary::bound(&mut self.cells, pid, source)
    }

    /// Frees the place of a job.
    pub fn release(&mut self, pid: i32) -> Result<(), Refusal> {
        boundary::release(&mut self.cells, pid)
    }

    /// What is kept of a job, and what it is charged.
    pub fn look(&self, pid: i32) -> Result<View, Refusal> {
        boundary::look(&self.cells, pid).map(|(job, charge)| View {
            headroom: job.headroom,
            mappings: job.mappings,
            totals: Figures {
                rss: job.rss,
                pss: job.pss,
                swap_pss: job.swap_pss,
            },
            charge,
            noted: noted(&job),
            bounds: bounds(&job),
        })
    }
}

fn noted(job: &Place) -> Option<Noted> {
    (job.noted != 0).then(|| Noted {
        state: char::from_u32(job.state).expect("the list keeps the letter of a state"),
        threads: job.threads,
        vmrss: (job.has_vmrss != 0).then_some(job.vmrss),
    })
}

fn bounds(job: &Place) -> Option<Bounds> {
    (job.bounded != 0).then(|| Bounds {
        address_space: limit(job.address_space_unlimited, job.address_space),
        open_files: limit(job.open_files_unlimited, job.open_files),
    })
}

fn limit(unlimited: u32, value: u64) -> LimitValue {
    match unlimited {
        0 => LimitValue::Value(value),
        _ => LimitValue::Unlimited,
    }
}
