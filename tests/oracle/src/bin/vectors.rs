//! `vectors lowering OUTDIR`: writes the replay list of the lowering, always the same one.

use oracle::answer::Answer;
use oracle::expected;
use oracle::generate::random::Random;
use oracle::generate::{anything, clashes, damage, frames, opcodes, points, rooms, Case};
use oracle::replay::Replay;
use std::collections::BTreeMap;
use std::path::Path;
use std::process::ExitCode;

const SEED: u64 = 1;
/// A damaged or random unit that is longer would fill the list and show little more.
const LONG: usize = 700;

fn main() -> ExitCode {
    let arguments: Vec<String> = std::env::args().skip(1).collect();
    let [list, folder] = &arguments[..] else {
        return usage();
    };
    if list != "lowering" {
        return usage();
    }
    let mut replay = Replay::default();
    let mut answers = BTreeMap::new();
    for case in lowering() {
        let lowering = expected::lowering(&case.file);
        let rooms = case.rooms(&lowering);
        let answer = lowering.and_then(|lowered| lowered.within(rooms));
        *answers.entry(number(&answer)).or_insert(0) += 1;
        replay.push(&case.file, rooms, &answer);
    }
    if let Err(error) = replay.write(Path::new(folder)) {
        eprintln!("{folder}: {error}");
        return ExitCode::FAILURE;
    }
    println!(
        "{} cases, stdin {} bytes, stdout {} bytes",
        replay.cases,
        replay.stdin.len(),
        replay.stdout.len()
    );
    println!("answers by number (0 is lowered): {answers:?}");
    ExitCode::SUCCESS
}

fn usage() -> ExitCode {
    eprintln!("usage: vectors lowering OUTDIR");
    ExitCode::from(2)
}

fn number(answer: &Answer) -> u32 {
    answer.as_ref().err().map_or(0, |refusal| refusal.number)
}

/// 01's known points first, then of each family all or a sample, then random units.
fn lowering() -> Vec<Case> {
    let mut random = Random::new(SEED);
    let mut cases: Vec<Case> = points::all().into_iter().map(|point| point.case).collect();

    cases.extend(random.sample(opcodes::counts_and_mixes(), 270));
    cases.extend(random.sample(opcodes::immediates_in_every_place(), 200));
    cases.extend(random.sample(opcodes::sizes_and_offsets(), 150));
    cases.extend(opcodes::stores());
    cases.extend(random.sample(opcodes::copies_and_reserves(), 120));
    cases.extend(opcodes::known_helpers());
    cases.extend(random.sample(opcodes::other_helpers(), 60));
    cases.extend(random.sample(opcodes::binaries(), 100));
    cases.extend(random.sample(opcodes::null_checks(), 60));
    cases.extend(opcodes::terminators());
    cases.extend(opcodes::unreached_faults());

    let clash = |number| Case::of(&clashes::nth(number));
    cases.extend((0..clashes::OF_ONE_BLOCK).map(clash));
    let of_two = clashes::OF_ONE_BLOCK..clashes::OF_ONE_BLOCK + clashes::OF_TWO_BLOCKS;
    cases.extend(random.sample(of_two.clone(), 120).into_iter().map(clash));
    cases.extend(random.sample(of_two.end..clashes::COUNT, 240).into_iter().map(clash));

    cases.extend(random.sample(frames::scratch_positions(), 18));
    cases.extend(random.sample(frames::brought_last(), 28));
    cases.extend(random.sample(frames::orders(), 12));
    cases.extend(random.sample(frames::before_other_faults(), 6));

    cases.extend(random.sample(rooms::all(), 150));

    let damaged = [
        random.sample(damage::truncated(), 50),
        random.sample(damage::flipped(), 90),
        random.sample(damage::misplaced(), 40),
        random.sample(damage::misshapen().filter(|file| file.len() <= LONG), 40),
        random.sample(damage::names(), 23),
        random.sample(damage::fields(), 150),
        random.sample(damage::counts(), 40),
    ];
    cases.extend(damaged.concat().into_iter().map(Case::of_file));

    let anything = std::iter::repeat_with(|| anything::case(&mut random));
    cases.extend(anything.filter(|case| case.file.len() <= LONG).take(380));
    cases
}
