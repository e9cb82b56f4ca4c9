//! Units to ask about. Every family is a fixed list or follows from a seed alone.

pub mod anything;
pub mod build;
pub mod clashes;
pub mod damage;
pub mod distances;
pub mod frames;
pub mod limits;
pub mod opcodes;
pub mod places;
pub mod points;
pub mod random;
pub mod rooms;

use crate::answer::{Answer, Rooms};
use crate::unit::Unit;
use crate::unitwriter::write;
use random::Random;

/// A unit file and how long its two buffers are.
#[derive(Debug, Clone)]
pub struct Case {
    pub file: Vec<u8>,
    pub code: Length,
    pub relocs: Length,
}

/// A buffer's length, told from what the code or its relocations need; a refused unit needs 0.
#[derive(Debug, Clone, Copy)]
pub enum Length {
    Zero,
    Less(usize),
    Exact,
    More(usize),
}

impl Length {
    fn cells(self, needed: usize) -> usize {
        match self {
            Length::Zero => 0,
            Length::Less(by) => needed.saturating_sub(by),
            Length::Exact => needed,
            Length::More(by) => needed + by,
        }
    }
}

impl Case {
    /// Buffers with some cells to spare, which must stay as they are.
    pub fn of_file(file: Vec<u8>) -> Case {
        Case { file, code: Length::More(19), relocs: Length::More(3) }
    }

    pub fn of(unit: &Unit) -> Case {
        Case::of_file(write(unit))
    }

    /// The buffers' lengths, given the answer where they are long enough.
    pub fn rooms(&self, lowering: &Answer) -> Rooms {
        let needed = match lowering {
            Ok(lowered) => lowered.needed(),
            Err(_) => Rooms { code: 0, relocs: 0 },
        };
        Rooms { code: self.code.cells(needed.code), relocs: self.relocs.cells(needed.relocs) }
    }
}

/// The fixed families but for the clashing ids, which are many.
pub fn systematic() -> impl Iterator<Item = Case> {
    points::all()
        .into_iter()
        .map(|point| point.case)
        .chain(opcodes::all())
        .chain(frames::all())
        .chain(rooms::all())
        .chain(damage::all())
        .chain(distances::all())
}

/// All fixed families, the clashing ids one by one between random cases, then random cases.
pub fn stream(seed: u64) -> impl Iterator<Item = Case> {
    let mut random = Random::new(seed);
    let mut clashing = 0..clashes::COUNT;
    let rest = std::iter::from_fn(move || {
        let number = if random.one_in(2) { clashing.next() } else { None };
        Some(match number {
            Some(n) => Case::of(&clashes::nth(n)),
            None if random.one_in(20) => Case::of(&places::any(&mut random)),
            None => anything::case(&mut random),
        })
    });
    systematic().chain(rest)
}
