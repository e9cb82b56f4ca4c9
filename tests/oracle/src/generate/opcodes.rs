//! Every opcode with every operand count and mix, and its fields at their limits.

use super::build::{
    bare, block, branch, immediate, instruction, jump, returns, single, unit, variable,
};
use super::limits::{helpers, IMMEDIATES, NUMBERS, OFFSETS, SIZES};
use super::Case;
use crate::unit::{BinaryOp, Opcode, Operand, Terminator};

pub fn all() -> impl Iterator<Item = Case> {
    counts_and_mixes()
        .chain(immediates_in_every_place())
        .chain(sizes_and_offsets())
        .chain(stores())
        .chain(copies_and_reserves())
        .chain(known_helpers())
        .chain(other_helpers())
        .chain(binaries())
        .chain(null_checks())
        .chain(terminators())
        .chain(unreached_faults())
}

/// One of each, and of the helpers one of each sort.
const FORMS: [Opcode; 16] = [
    Opcode::HelperCall { id: 5 },
    Opcode::HelperCall { id: 16 },
    Opcode::HelperCall { id: 17 },
    Opcode::HelperCall { id: 114 },
    Opcode::HelperCall { id: 115 },
    Opcode::LoadKey,
    Opcode::Store { size: 4 },
    Opcode::LoadCtx { offset: 8, size: 2 },
    Opcode::LoadPacket { offset: -8, size: 1 },
    Opcode::CopyCtxToMem { offset: -1, size: 16 },
    Opcode::NullCheck,
    Opcode::Binary { op: BinaryOp::Sub },
    Opcode::CallMap { map: 1 },
    Opcode::UpdateMap { map: 1 },
    Opcode::RingBufReserve { map: 1, size: 24 },
    Opcode::RingBufSubmit { map: 1 },
];

/// Counts 0 to 8, each operand a variable or an immediate in every combination.
pub fn counts_and_mixes() -> impl Iterator<Item = Case> {
    FORMS.into_iter().flat_map(|opcode| {
        (0..=8).flat_map(move |count| {
            (0..1_u32 << count).map(move |mix| {
                let operand = |i: u32| match mix >> i & 1 {
                    0 => variable(10 - i),
                    _ => immediate(i64::from(i) - 4),
                };
                let operands: Vec<Operand> = (0..count).map(operand).collect();
                Case::of(&single(opcode, &operands))
            })
        })
    })
}

/// Counts 0 to 3, every operand good or bad, so that the order of an instruction's checks shows.
pub fn immediates_in_every_place() -> impl Iterator<Item = Case> {
    const CHOICES: [Operand; 6] = [
        Operand::Variable(2),
        Operand::Variable(7),
        Operand::Immediate(5),
        Operand::Immediate(i32::MIN as i64),
        Operand::Immediate(i32::MAX as i64 + 1),
        Operand::Immediate(i32::MIN as i64 - 1),
    ];
    FORMS.into_iter().flat_map(|opcode| {
        (0..=3).flat_map(move |count| {
            (0..CHOICES.len().pow(count)).map(move |number| {
                let choice = |i: u32| CHOICES[number / CHOICES.len().pow(i) % CHOICES.len()];
                let operands: Vec<Operand> = (0..count).map(choice).collect();
                Case::of(&single(opcode, &operands))
            })
        })
    })
}

pub fn sizes_and_offsets() -> impl Iterator<Item = Case> {
    SIZES.into_iter().flat_map(|size| {
        OFFSETS.into_iter().flat_map(move |offset| {
            let ctx = single(Opcode::LoadCtx { offset, size }, &[]);
            let packet = single(Opcode::LoadPacket { offset, size }, &[immediate(i64::MAX)]);
            [Case::of(&ctx), Case::of(&packet)]
        })
    })
}

pub fn stores() -> impl Iterator<Item = Case> {
    let bad = immediate(1 << 40);
    let operands = [
        vec![],
        vec![variable(3)],
        vec![variable(3), variable(4)],
        vec![bad, variable(4)],
        vec![variable(3), bad],
        vec![variable(3), immediate(-9), variable(4)],
    ];
    SIZES.into_iter().flat_map(move |size| {
        let store = Opcode::Store { size };
        let cases: Vec<Case> =
            operands.iter().map(|operands| Case::of(&single(store, operands))).collect();
        cases
    })
}

pub fn copies_and_reserves() -> impl Iterator<Item = Case> {
    let first = [None, Some(variable(3)), Some(immediate(-2)), Some(immediate(1 << 31))];
    NUMBERS.into_iter().flat_map(move |size| {
        let mut cases = Vec::new();
        for operand in first {
            let operands: Vec<Operand> = operand.into_iter().collect();
            cases.push(Case::of(&single(Opcode::RingBufReserve { map: 0, size }, &operands)));
            for offset in OFFSETS {
                let copy = Opcode::CopyCtxToMem { offset, size };
                cases.push(Case::of(&single(copy, &operands)));
            }
        }
        cases
    })
}

/// The helpers that 01 names, with every count.
pub fn known_helpers() -> impl Iterator<Item = Case> {
    [5, 14, 15, 16, 35, 114, 115].into_iter().flat_map(|id| (0..=8).map(move |n| call(id, n)))
}

pub fn other_helpers() -> impl Iterator<Item = Case> {
    helpers().flat_map(|id| [0, 1, 2, 3, 4, 8].map(|count| call(id, count)))
}

fn call(id: u32, count: u32) -> Case {
    let operands: Vec<Operand> = (0..count).map(|i| variable(8 + i)).collect();
    Case::of(&single(Opcode::HelperCall { id }, &operands))
}

pub fn binaries() -> impl Iterator<Item = Case> {
    BinaryOp::ALL.into_iter().flat_map(|op| {
        IMMEDIATES.into_iter().flat_map(move |value| {
            let pairs = [
                [variable(2), immediate(value)],
                [immediate(value), variable(9)],
                [immediate(value), immediate(1 << 31)],
                [variable(9), variable(2)],
            ];
            pairs.map(|operands| Case::of(&single(Opcode::Binary { op }, &operands)))
        })
    })
}

/// A NullCheck leaves early or not by the branch conditions of all blocks, reached or not.
pub fn null_checks() -> impl Iterator<Item = Case> {
    let check = |result, operand| instruction(result, Opcode::NullCheck, &[operand]);
    let conditions = [variable(1), variable(2), immediate(1)];
    let mut cases = Vec::new();
    for own in conditions {
        for other in conditions {
            for operand in [variable(1), variable(2), immediate(0), immediate(1 << 31)] {
                // Block 3 is reached from the first of these units alone.
                for target in [3, 1] {
                    let first = block(
                        1,
                        vec![check(1, operand), check(2, operand)],
                        branch(own, target, 2),
                    );
                    let third = block(3, vec![check(2, operand)], branch(other, 1, 2));
                    let blocks = vec![first, bare(2, returns(0)), third];
                    cases.push(Case::of(&unit(0, blocks)));
                }
                let returned = block(1, vec![check(1, operand)], Terminator::Return(own));
                let unreached = bare(2, branch(other, 2, 2));
                cases.push(Case::of(&unit(0, vec![returned, unreached])));
            }
        }
    }
    cases.into_iter()
}

pub fn terminators() -> impl Iterator<Item = Case> {
    let operands: Vec<Operand> =
        IMMEDIATES.map(immediate).into_iter().chain([0, 1, u32::MAX].map(variable)).collect();
    operands.into_iter().flat_map(|operand| {
        let returned = unit(0, vec![bare(1, Terminator::Return(operand))]);
        let branched = unit(0, vec![bare(1, branch(operand, 1, 2)), bare(2, returns(3))]);
        // The operand is judged before any target.
        let missing = unit(0, vec![bare(1, jump(2)), bare(2, branch(operand, 8, 9))]);
        [Case::of(&returned), Case::of(&branched), Case::of(&missing)]
    })
}

/// Each fault in a block that is not reached, is the second of two, or is reached.
pub fn unreached_faults() -> impl Iterator<Item = Case> {
    let faults = [
        (Opcode::LoadKey, vec![]),
        (Opcode::LoadKey, vec![immediate(1 << 31)]),
        (Opcode::LoadCtx { offset: 32_768, size: 1 }, vec![]),
        (Opcode::LoadPacket { offset: 0, size: 7 }, vec![]),
        (Opcode::Store { size: 0 }, vec![variable(1), variable(2)]),
        (Opcode::HelperCall { id: 16 }, vec![]),
        (Opcode::HelperCall { id: 1 }, vec![]),
        (Opcode::RingBufReserve { map: 0, size: 1 << 31 }, vec![]),
        (Opcode::CopyCtxToMem { offset: 0, size: u32::MAX }, vec![variable(1)]),
    ];
    faults.into_iter().flat_map(|(opcode, operands)| {
        let faulty = |id| block(id, vec![instruction(3, opcode, &operands)], returns(1));
        let placements = [
            vec![bare(1, returns(0)), faulty(2)],
            vec![bare(1, jump(2)), faulty(2)],
            vec![bare(1, jump(2)), faulty(2), bare(2, returns(2))],
            vec![bare(1, jump(3)), faulty(2), bare(3, returns(2))],
            vec![bare(1, jump(2)), bare(2, jump(9)), faulty(2), faulty(1)],
            vec![faulty(1), bare(1, returns(i64::MAX))],
        ];
        placements.map(|blocks| Case::of(&unit(1, blocks)))
    })
}
