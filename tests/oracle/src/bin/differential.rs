//! `differential N [seed]`: N units through the oracle and the back end under test. Answers and
//! buffers are compared; the first difference ends the run and shows the unit.

use oracle::answer::{hex, listing, Answer};
use oracle::backend::{compare, BackEnd};
use oracle::{expected, generate};
use std::collections::BTreeMap;
use std::process::ExitCode;

const EVERY: u64 = 50_000;

fn main() -> ExitCode {
    let arguments: Vec<u64> =
        std::env::args().skip(1).filter_map(|text| text.parse().ok()).collect();
    let (units, seed) = match arguments[..] {
        [units] => (units, 1),
        [units, seed] => (units, seed),
        _ => {
            eprintln!("usage: differential N [seed]");
            return ExitCode::from(2);
        }
    };

    let backend = backend();
    println!("oracle against {}: {units} units, seed {seed}", backend.name());
    let mut tally = Tally::default();
    for (case, number) in generate::stream(seed).zip(1..=units) {
        let lowering = expected::lowering(&case.file);
        let rooms = case.rooms(&lowering);
        let expected = lowering.and_then(|lowered| lowered.within(rooms));
        if let Err(difference) = compare(&*backend, &case.file, rooms, &expected) {
            println!("unit {number} differs: {difference}");
            println!("rooms: {} bytes, {} u32s", rooms.code, rooms.relocs);
            print!("expected: {}", listing(&expected));
            println!("unit: {}", hex(&case.file));
            return ExitCode::FAILURE;
        }
        tally.count(&expected);
        if number % EVERY == 0 {
            println!("{number} units agree");
        }
    }
    println!("{tally}");
    println!("{units} units, seed {seed}: no difference");
    ExitCode::SUCCESS
}

#[cfg(feature = "shurtenbo")]
fn backend() -> Box<dyn BackEnd> {
    Box::new(oracle::shurtenbo::Shurtenbo)
}

#[cfg(not(feature = "shurtenbo"))]
fn backend() -> Box<dyn BackEnd> {
    Box::new(oracle::backend::FromPaper)
}

/// How often each answer was given, to show that none was missed.
#[derive(Default)]
struct Tally {
    lowered: u64,
    refused: BTreeMap<u32, u64>,
}

impl Tally {
    fn count(&mut self, answer: &Answer) {
        match answer {
            Ok(_) => self.lowered += 1,
            Err(refusal) => *self.refused.entry(refusal.number).or_default() += 1,
        }
    }
}

impl std::fmt::Display for Tally {
    fn fmt(&self, f: &mut std::fmt::Formatter) -> std::fmt::Result {
        write!(f, "lowered {}; refused", self.lowered)?;
        self.refused.iter().try_for_each(|(number, count)| write!(f, " {number}: {count}"))
    }
}
