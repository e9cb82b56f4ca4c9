//! 54 to 58 variables, brought in every way, with the scratch ring at every position.

use super::build::{bare, block, branch, immediate, instruction, returns, unit, variable};
use super::Case;
use crate::unit::{Block, Instruction, Opcode, Operand, Terminator};

const COUNTS: std::ops::RangeInclusive<u32> = 54..=58;

pub fn all() -> impl Iterator<Item = Case> {
    scratch_positions().chain(brought_last()).chain(orders()).chain(before_other_faults())
}

/// Brings these variables with few bytes: LoadCtx ignores its operands, and they count all the
/// same, so one instruction brings nine.
fn bringing(variables: impl IntoIterator<Item = u32>) -> Vec<Instruction> {
    let variables: Vec<u32> = variables.into_iter().collect();
    let nine = |part: &[u32]| {
        let operands: Vec<Operand> = part[1..].iter().copied().map(variable).collect();
        instruction(part[0], Opcode::LoadCtx { offset: 0, size: 8 }, &operands)
    };
    variables.chunks(9).map(nine).collect()
}

/// From no lookup by an immediate key to more than twice round the ring, in one block and in two.
pub fn scratch_positions() -> impl Iterator<Item = Case> {
    COUNTS.flat_map(|count| {
        (0..=17_i64).flat_map(move |lookups| {
            let key = |k: i64| instruction(0, Opcode::CallMap { map: 0 }, &[immediate(k)]);
            let update = |k: i64| {
                let operands = [immediate(k), immediate(-k)];
                instruction(1, Opcode::UpdateMap { map: 0 }, &operands)
            };
            let one_block = {
                let mut instructions = bringing(0..count);
                instructions.extend((0..lookups).map(key));
                vec![block(1, instructions, returns(0))]
            };
            let two_blocks = {
                let mut instructions = bringing(0..count);
                instructions.extend((0..lookups / 2).map(key));
                let second = (lookups / 2..lookups).map(update).collect();
                vec![
                    block(1, instructions, Terminator::Jump(2)),
                    block(2, second, Terminator::Return(variable(3))),
                ]
            };
            [Case::of(&unit(1, one_block)), Case::of(&unit(1, two_blocks))]
        })
    })
}

/// The last variable comes by a record of each sort; with 57 its place is the answer's place.
pub fn brought_last() -> impl Iterator<Item = Case> {
    COUNTS.flat_map(|count| {
        let last = count - 1;
        let known = variable(0);
        let front = |more: &[Instruction], terminator| {
            let instructions = bringing(0..last).into_iter().chain(more.iter().cloned());
            vec![block(1, instructions.collect(), terminator)]
        };
        let single = |instruction: Instruction| front(&[instruction], returns(0));
        let with_unreached = |unreached: Block| {
            let mut blocks = front(&[], returns(0));
            blocks.push(unreached);
            blocks
        };
        let key = Opcode::LoadKey;
        let store = Opcode::Store { size: 8 };
        let eight = [known, known, known, known, known, known, known, variable(last)];
        let variants = vec![
            single(instruction(last, key, &[known])),
            single(instruction(0, key, &[variable(last)])),
            single(instruction(0, key, &eight)),
            single(instruction(last, store, &[known, known])),
            single(instruction(last, Opcode::RingBufSubmit { map: 0 }, &[])),
            single(instruction(0, Opcode::HelperCall { id: 16 }, &[variable(last)])),
            front(&[], Terminator::Return(variable(last))),
            front(&[], branch(variable(last), 1, 1)),
            with_unreached(bare(2, Terminator::Return(variable(last)))),
            with_unreached(bare(2, branch(variable(last), 2, 3))),
            with_unreached(block(2, vec![instruction(last, key, &[known])], returns(0))),
            with_unreached(block(2, bringing([0, last, last + 1]), returns(1 << 31))),
        ];
        variants.into_iter().map(|blocks| Case::of(&unit(1, blocks)))
    })
}

/// A cell goes by the variable's number, whichever comes first in the file.
pub fn orders() -> impl Iterator<Item = Case> {
    let numberings: [fn(u32) -> u32; 4] =
        [|i| 100 - i, |i| u32::MAX - i, |i| i * 37 % 59, |i| i.wrapping_mul(0x9e37_79b9)];
    numberings.into_iter().flat_map(|number| {
        [1, 2, 3, 9, 55, 56, 57].into_iter().map(move |count| {
            let mut instructions = bringing((0..count).map(number));
            instructions.push(instruction(
                number(count / 2),
                Opcode::UpdateMap { map: 0 },
                &[variable(number(0)), immediate(1)],
            ));
            let returned = Terminator::Return(variable(number(count - 1)));
            Case::of(&unit(1, vec![block(1, instructions, returned)]))
        })
    })
}

/// Refusal 10 goes before every other, wherever that one stands.
pub fn before_other_faults() -> impl Iterator<Item = Case> {
    let faulty = instruction(0, Opcode::LoadKey, &[immediate(1 << 31)]);
    COUNTS.flat_map(move |count| {
        let mut early = vec![faulty.clone()];
        early.extend(bringing(0..count));
        let mut late = bringing(0..count);
        late.push(faulty.clone());
        [
            Case::of(&unit(0, vec![block(1, early, returns(0))])),
            Case::of(&unit(0, vec![block(1, late, returns(0))])),
            Case::of(&unit(0, vec![block(1, bringing(0..count), Terminator::Jump(7))])),
        ]
    })
}
