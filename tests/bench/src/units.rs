//! Units to time: small ones, probes as one would write them, families that double in size up to
//! the longest file, and refused ones.

use oracle::generate::build::{
    bare, block, branch, immediate, instruction, jump, returns, unit, variable,
};
use oracle::generate::{distances, points, random::Random};
use oracle::unit::{BinaryOp, Block, Instruction, Opcode, Terminator, Unit};
use oracle::unitfile::LONGEST_FILE;
use oracle::unitwriter::write;

use crate::probes::probe;

pub struct Case {
    pub name: String,
    pub file: Vec<u8>,
    pub blocks: usize,
    pub instructions: usize,
}

fn case(name: impl Into<String>, unit: &Unit) -> Case {
    let instructions = unit.blocks.iter().map(|block| block.instructions.len()).sum();
    Case { name: name.into(), file: write(unit), blocks: unit.blocks.len(), instructions }
}

pub fn small() -> Vec<Case> {
    let maps = |count| unit(count, vec![bare(1, returns(0))]);
    vec![case("P1", &maps(0)), case("P2", &points::p2()), case("P1 with 64 maps", &maps(64))]
}

pub fn typical() -> Vec<Case> {
    let name = |unit: &Unit| format!("probe of {} blocks", unit.blocks.len());
    (0..=4).map(probe).map(|unit| case(name(&unit), &unit)).collect()
}

/// Families of units, each with one name and about twice as long as the one before.
pub fn families() -> Vec<Case> {
    let families = [
        by_count("bare blocks, each jumping to the next", |blocks| chain(blocks as u32)),
        by_count("bare blocks, branches to any of them", |blocks| tangle(blocks as u32)),
        by_count("blocks of six instructions", |blocks| blocks_of_six(blocks as u32)),
        by_length("probes one after the other", |size| filled(size, probe)),
        by_length("additions", |size| filled_by(size, addition)),
        by_length("map loads, 64 maps", |size| filled_by(size, lookup)),
        by_length("map updates", |size| filled_by(size, update)),
        by_length("56 variables in any order", |size| filled_by(size, any_variables)),
        by_length("shortest records", |size| filled_by(size, time)),
        by_length("longest records", |size| filled_by(size, eight_operands)),
        by_length("not reached but for the first block", |size| filled(size, unreached)),
    ];
    families.into_iter().flatten().collect()
}

pub fn refused() -> Vec<Case> {
    let longest = filled_by(LONGEST_FILE, addition);
    let with = |at: usize, wrong: Instruction| {
        let mut unit = longest.clone();
        unit.blocks[0].instructions[at] = wrong;
        unit
    };
    let last = longest.blocks[0].instructions.len() - 1;
    let too_large = || instruction(1, Opcode::LoadKey, &[immediate(1 << 31)]);
    let no_size = || instruction(1, Opcode::LoadCtx { offset: 0, size: 3 }, &[]);
    let another = |count: u32| -> Vec<Instruction> { (100..100 + count).map(kept).collect() };
    let mut variables_first = longest.clone();
    variables_first.blocks[0].instructions.splice(0..57, another(57));
    let mut variables_last = longest.clone();
    variables_last.blocks[0].instructions.splice(last - 56..=last, another(57));

    let mut missing = blocks_of_six(1_024);
    missing.blocks[1_023].terminator = jump(5_000);

    let damaged = |name: &str, damage: &dyn Fn(&mut Vec<u8>)| {
        let mut case = case(name, &longest);
        damage(&mut case.file);
        case
    };
    vec![
        case("small: bad immediate (12)", &unit(0, vec![bare(1, returns(1 << 31))])),
        case(
            "small: both targets missing (18)",
            &unit(0, vec![bare(1, branch(immediate(1), 7, 8))]),
        ),
        damaged("too long (1)", &|file| file.resize(LONGEST_FILE + 1, 0)),
        damaged("bad head (3)", &|file| file[4] = 2),
        damaged("first record of the block (5)", &|file| file[12 + 8 + 4 + 4] = 99),
        damaged("last record (5)", &|file| {
            let tag = file.len() - 9;
            file[tag] = 9;
        }),
        damaged("a byte after the last record (4)", &|file| file.push(0)),
        case("57 variables at once (10)", &variables_first),
        case("57 variables at the end (10)", &variables_last),
        case("bad immediate in the first instruction (12)", &with(0, too_large())),
        case("bad immediate in the last instruction (12)", &with(last, too_large())),
        case("bad size in the last instruction (14)", &with(last, no_size())),
        case("last of 1,024 blocks jumps to none (18)", &missing),
        case("a jump of 32,768 (19)", &distances::forward(32_768)),
    ]
}

/// What part of the largest a unit of a family is.
const SIZES: [usize; 4] = [8, 4, 2, 1];

fn by_count(name: &str, of: impl Fn(usize) -> Unit) -> [Case; 4] {
    SIZES.map(|part| case(name, &of(1_024 / part)))
}

fn by_length(name: &str, of: impl Fn(usize) -> Unit) -> [Case; 4] {
    SIZES.map(|part| case(name, &of(LONGEST_FILE / part)))
}

/// The largest of these units, by its number, whose file is no longer than `size`.
fn filled(size: usize, of: impl Fn(usize) -> Unit) -> Unit {
    let fits = |number: usize| {
        let unit = of(number);
        unit.blocks.len() <= 1_024 && write(&unit).len() <= size
    };
    let mut number = 0;
    for step in (0..15).rev().map(|bit| 1 << bit) {
        if fits(number + step) {
            number += step;
        }
    }
    of(number)
}

/// One block of these instructions.
fn filled_by(size: usize, mut of: impl FnMut(&mut Random, usize) -> Instruction) -> Unit {
    let mut random = Random::new(1);
    let mut instructions = Vec::new();
    let mut unit = unit(64, vec![bare(1, returns(0))]);
    let mut room = size - write(&unit).len();
    loop {
        let next = of(&mut random, instructions.len());
        let bytes = 20 + 9 * next.operands.len();
        if bytes > room {
            break;
        }
        room -= bytes;
        instructions.push(next);
    }
    unit.blocks[0].instructions = instructions;
    unit
}

fn kept(result: u32) -> Instruction {
    instruction(result, Opcode::Binary { op: BinaryOp::Sub }, &[variable(1), variable(2)])
}

fn addition(_: &mut Random, at: usize) -> Instruction {
    let op = BinaryOp::ALL[at % BinaryOp::ALL.len()];
    let second = if at % 2 == 0 { immediate(at as i64) } else { variable(2) };
    instruction(1, Opcode::Binary { op }, &[variable(1), second])
}

fn lookup(_: &mut Random, at: usize) -> Instruction {
    let key = if at % 2 == 0 { immediate(at as i64) } else { variable(2) };
    instruction(1, Opcode::CallMap { map: (at % 64) as u32 }, &[key])
}

fn update(_: &mut Random, at: usize) -> Instruction {
    instruction(1, Opcode::UpdateMap { map: 0 }, &[immediate(at as i64), immediate(7)])
}

/// Numbers far apart, none before the other for long.
fn any_variables(random: &mut Random, _: usize) -> Instruction {
    let mut any = || (random.below(56) as u32).wrapping_mul(0x9e37_79b1);
    let operands = [variable(any()), variable(any())];
    instruction(any(), Opcode::Binary { op: BinaryOp::Add }, &operands)
}

fn time(_: &mut Random, _: usize) -> Instruction {
    instruction(1, Opcode::HelperCall { id: 5 }, &[])
}

fn eight_operands(_: &mut Random, at: usize) -> Instruction {
    let operands: Vec<_> = (0..8).map(|k| variable((at as u32 + k) % 40)).collect();
    instruction(1, Opcode::LoadKey, &operands)
}

fn chain(blocks: u32) -> Unit {
    let block = |id: u32| bare(id, if id < blocks { jump(id + 1) } else { returns(0) });
    unit(0, (1..=blocks).map(block).collect())
}

fn tangle(blocks: u32) -> Unit {
    let mut random = Random::new(2);
    // An odd factor keeps the ids distinct and far from sorted.
    let id = |number: u32| number.wrapping_mul(0x9e37_79b1);
    let mut block = |number: u32| {
        let any = id(random.below(blocks as usize) as u32);
        bare(id(number), branch(variable(1), any, id((number + 1) % blocks)))
    };
    unit(0, (0..blocks).map(&mut block).collect())
}

fn blocks_of_six(blocks: u32) -> Unit {
    let mut random = Random::new(3);
    let mut block = |id: u32| -> Block {
        let mut instructions: Vec<_> = (0..5).map(|at| addition(&mut random, at)).collect();
        instructions.push(instruction(1, Opcode::LoadCtx { offset: 8, size: 8 }, &[]));
        let terminator: Terminator =
            if id < blocks { branch(variable(1), id + 1, 1 + id / 2) } else { returns(0) };
        block(id, instructions, terminator)
    };
    unit(0, (1..=blocks).map(&mut block).collect())
}

fn unreached(stages: usize) -> Unit {
    let mut unit = probe(stages);
    unit.blocks[0].terminator = returns(0);
    unit
}
