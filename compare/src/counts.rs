//! Counts over the texts of a reading.

use crate::cases::{Sort, SORTS};
use crate::record::{Answer, Due, Reading};
use std::collections::{BTreeMap, BTreeSet};

#[derive(Default)]
pub struct Counts {
    pub inputs: [usize; SORTS.len()],
    accepted: usize,
    /// By the number of the refusal.
    pub refused: BTreeMap<usize, usize>,
    /// The fields at which refusals came.
    fields: BTreeSet<usize>,
    /// Where due is what procfs-core answers.
    agreed: usize,
    differing: BTreeMap<&'static str, usize>,
    pub untold: usize,
}

/// What is counted of what is due to a text.
#[derive(Clone, Copy)]
pub struct Told {
    /// The number of the refusal and its field.
    refusal: Option<(usize, usize)>,
    difference: Option<&'static str>,
}

impl Told {
    pub fn of(due: &Due) -> Told {
        Told {
            refusal: match &due.ours {
                Answer::Accepted(_) => None,
                Answer::Refused(refusal) => Some((refusal.number, refusal.field)),
            },
            difference: due.difference,
        }
    }
}

impl Counts {
    pub fn input(&mut self, sort: Sort) {
        self.inputs[sort as usize] += 1;
    }

    pub fn told(&mut self, told: Told) {
        match told.refusal {
            None => self.accepted += 1,
            Some((number, field)) => {
                *self.refused.entry(number).or_default() += 1;
                self.fields.insert(field);
            }
        }
        match told.difference {
            None => self.agreed += 1,
            Some(name) => *self.differing.entry(name).or_default() += 1,
        }
    }

    pub fn print_inputs(&self) {
        line("inputs", self.inputs.iter().sum());
        for (sort, count) in SORTS.iter().zip(self.inputs) {
            line(&format!("  {sort}"), count);
        }
    }

    /// What the answers are, each called so.
    pub fn print_answers(&self, called: &str) {
        line(called, self.agreed + self.differing.values().sum::<usize>());
        line("  accepted", self.accepted);
        for (number, count) in &self.refused {
            line(&format!("  refused {number}"), *count);
        }
    }

    pub fn print_differences(&self, reading: &Reading) {
        line("as procfs-core answers", self.agreed);
        line("differing as intended", self.differing.values().sum());
        for name in &reading.differences {
            line(&format!("  {name}"), self.difference(name));
        }
    }

    pub fn difference(&self, name: &str) -> usize {
        self.differing.get(name).copied().unwrap_or(0)
    }

    /// The fields at which refusals came, or at which none did.
    pub fn fields(&self, reading: &Reading, refused: bool) -> Vec<usize> {
        (1..=reading.fields)
            .filter(|field| self.fields.contains(field) == refused)
            .collect()
    }
}

pub fn line(name: &str, count: usize) {
    println!("{name:<34}{count:>9}");
}

/// The numbers, with spaces between.
pub fn listed(numbers: &[usize]) -> String {
    let numbers: Vec<String> = numbers.iter().map(usize::to_string).collect();
    numbers.join(" ")
}
