//! The texts of a reading: those of the machine, the list of cases, generated and damaged ones, such as
//! break off, and such as are about as long as a text may be.

use crate::damage::damaged;
use crate::dice::Dice;
use crate::machine;
use crate::record::Reading;
use crate::text::Case;

#[derive(Clone, Copy)]
pub enum Sort {
    Real,
    Listed,
    Generated,
    Damaged,
    BrokenOff,
    Huge,
}

pub const SORTS: [&str; 6] = [
    "real",
    "listed",
    "generated",
    "damaged",
    "broken off",
    "huge",
];

pub struct Cases<'a> {
    reading: &'a Reading,
    /// The texts of the machine.
    real: Vec<Vec<u8>>,
}

impl Cases<'_> {
    pub fn of(reading: &Reading) -> Cases<'_> {
        let names = reading.names.iter();
        Cases {
            reading,
            real: names.flat_map(|name| machine::texts(name)).collect(),
        }
    }

    fn breaks(&self) -> bool {
        self.reading.block.is_some()
    }

    /// Those that no dice make.
    pub fn fixed(&self) -> impl Iterator<Item = (Sort, Case)> + '_ {
        let real = self.real.iter().cloned();
        let listed = (self.reading.listed)();
        let broken: Vec<Vec<u8>> = if self.breaks() {
            listed.clone()
        } else {
            Vec::new()
        };
        real.map(|text| (Sort::Real, Case::whole(text)))
            .chain(
                listed
                    .into_iter()
                    .map(|text| (Sort::Listed, Case::whole(text))),
            )
            .chain(
                broken
                    .into_iter()
                    .map(|text| (Sort::BrokenOff, Case::broken(text))),
            )
    }

    /// So many that dice make.
    pub fn made(&self, count: usize, seed: u64) -> impl Iterator<Item = (Sort, Case)> + '_ {
        let filled: Vec<&Vec<u8>> = self.real.iter().filter(|text| !text.is_empty()).collect();
        let mut seeds = Dice::new(seed);
        (0..count).map(move |index| {
            // Each has its own dice, so that only copies of the machine's texts depend on these.
            let mut dice = Dice::new(seeds.next());
            let of_machine = index % 8 == 1 && !filled.is_empty();
            let mut text = if of_machine {
                dice.pick(&filled).clone()
            } else {
                (self.reading.generated)(&mut dice)
            };
            if index % 8 == 6 && self.breaks() {
                return (Sort::BrokenOff, Case::broken(cut(&mut dice, text)));
            }
            if index % 2 == 0 {
                return (Sort::Generated, Case::whole(text));
            }
            text = damaged(&mut dice, &text);
            (Sort::Damaged, Case::whole(text))
        })
    }

    /// About as long as a text may be: 268435456 bytes, and more behind them.
    pub fn huge(&self) -> impl Iterator<Item = (Sort, Case)> + '_ {
        let ends: [(&[u8], bool); 7] = [
            (b"", false),
            (b"", true),
            (b"A", false),
            (b"A", true),
            (b"\xff\n", false),
            (&[b'A'; 4096], false),
            (b"Abc: 1 2 3\n", false),
        ];
        let blocks = self.reading.block.iter();
        blocks.flat_map(move |block| {
            ends.into_iter()
                .map(move |(end, broken)| (Sort::Huge, Case::doubled(block, 12, end, broken)))
        })
    }
}

/// A text that breaks off anywhere, at the end of a line, or at its end.
fn cut(dice: &mut Dice, mut text: Vec<u8>) -> Vec<u8> {
    if dice.chance(25) {
        text = damaged(dice, &text);
    }
    match dice.below(3) {
        0 => text.truncate(dice.below(text.len() + 1)),
        1 => {
            let ends: Vec<usize> = (1..=text.len())
                .filter(|end| text[end - 1] == b'\n')
                .collect();
            if !ends.is_empty() {
                text.truncate(dice.pick(&ends));
            }
        }
        _ => {}
    }
    text
}
