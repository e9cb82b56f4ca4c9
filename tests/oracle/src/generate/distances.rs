//! Jumps at and just past the ends of −32,768 to 32,767.

use super::build::{bare, block, branch, immediate, instruction, jump, returns, unit, variable};
use super::Case;
use crate::unit::{Instruction, Opcode, Unit};

/// Thirteen slots for 38 bytes: no record gives more slots for its bytes.
const LONGEST: usize = 13;

/// Instructions that become exactly this many slots, in few bytes. A unit that uses them has a map
/// and no branch condition 1.
pub fn body(slots: usize) -> Vec<Instruction> {
    let filler = |slots| match slots {
        13 => (Opcode::UpdateMap { map: 0 }, vec![immediate(1), immediate(2)]),
        8 => (Opcode::CallMap { map: 0 }, vec![immediate(1)]),
        7 => (Opcode::NullCheck, vec![immediate(1)]),
        6 => (Opcode::RingBufReserve { map: 0, size: 8 }, vec![]),
        5 => (Opcode::RingBufSubmit { map: 0 }, vec![immediate(1)]),
        3 => (Opcode::LoadKey, vec![immediate(1)]),
        2 => (Opcode::LoadCtx { offset: 0, size: 8 }, vec![]),
        _ => unreachable!("no filler of {slots} slots"),
    };
    // Nothing has one slot, so what is left must not be one.
    let last = match slots % LONGEST {
        1 => slots.min(LONGEST + 1),
        rest => rest,
    };
    let mut sizes = vec![LONGEST; (slots - last) / LONGEST];
    sizes.extend_from_slice(match last {
        0 => &[],
        2 => &[2],
        3 => &[3],
        4 => &[2, 2],
        5 => &[5],
        6 => &[6],
        7 => &[7],
        8 => &[8],
        9 => &[6, 3],
        10 => &[8, 2],
        11 => &[8, 3],
        12 => &[6, 6],
        14 => &[8, 6],
        _ => panic!("no body has {slots} slots"),
    });
    let instruction = |size: usize| {
        let (opcode, operands) = filler(size);
        instruction(1, opcode, &operands)
    };
    sizes.into_iter().map(instruction).collect()
}

/// A jump over the second of two blocks with one id, which is the shortest way to a long jump:
/// both are emitted, and the second leads to the target.
pub fn forward(distance: usize) -> Unit {
    let twin = block(1, body(distance - 1), jump(2));
    unit(1, vec![bare(1, jump(2)), twin, bare(2, returns(0))])
}

/// A block that jumps to its own start.
pub fn backward(distance: i64) -> Unit {
    let slots = usize::try_from(-distance - 1).expect("a jump back past its own block's start");
    unit(1, vec![block(1, body(slots), jump(1))])
}

pub fn all() -> impl Iterator<Item = Case> {
    (32_766..=32_769_usize).flat_map(|distance| at(distance).into_iter().map(|u| Case::of(&u)))
}

/// Units with a jump of this distance, forward or back (there one more), of each form.
fn at(distance: usize) -> Vec<Unit> {
    let condition = variable(9);
    let end = |id| bare(id, returns(0));
    let long = |id, slots, terminator| block(id, body(slots), terminator);
    let back = distance + 1;
    vec![
        forward(distance),
        backward(-(distance as i64)),
        backward(-(back as i64)),
        // True far, false near; then the other way round.
        unit(1, vec![bare(1, branch(condition, 3, 2)), long(2, distance - 3, returns(0)), end(3)]),
        unit(1, vec![bare(1, branch(condition, 2, 3)), long(2, distance - 2, returns(0)), end(3)]),
        // Both to one far block: the jump to true is one farther.
        unit(1, vec![bare(1, branch(condition, 2, 2)), long(1, distance - 1, jump(2)), end(2)]),
        // Back to the own start, on true and on false.
        unit(1, vec![long(1, back - 2, branch(condition, 1, 2)), end(2)]),
        unit(1, vec![long(1, back - 3, branch(condition, 2, 1)), end(2)]),
        unit(1, vec![long(1, back - 3, branch(condition, 1, 1))]),
        // One target missing, the other far: the false one is judged first.
        unit(1, vec![bare(1, branch(condition, 7, 2)), long(1, distance - 1, jump(2)), end(2)]),
        unit(1, vec![bare(1, branch(condition, 2, 7)), long(1, distance - 1, jump(2)), end(2)]),
        // The first of two jumps to one block is far, the second near; then the missing one first.
        unit(1, vec![bare(1, jump(2)), bare(1, jump(2)), long(1, distance - 2, jump(2)), end(2)]),
        unit(1, vec![bare(1, jump(7)), long(1, distance - 1, jump(2)), bare(1, jump(2)), end(2)]),
        unit(1, vec![bare(1, jump(2)), long(1, distance - 1, jump(7)), bare(1, jump(2)), end(2)]),
        // Far from the last block of an id, near to the first.
        unit(1, vec![bare(1, jump(2)), end(2), long(2, distance - 3, jump(2)), end(2)]),
        // A NullCheck whose result is a condition elsewhere is one slot shorter.
        unit(
            1,
            vec![
                bare(1, jump(2)),
                block(1, with_null_check(distance - 7), jump(2)),
                end(2),
                bare(3, branch(variable(4), 3, 3)),
            ],
        ),
        // Not reached, so never too far.
        unit(1, vec![end(1), bare(2, jump(3)), long(2, distance, jump(3)), end(3)]),
    ]
}

/// This many slots and those of a NullCheck with result 4.
fn with_null_check(slots: usize) -> Vec<Instruction> {
    let mut instructions = vec![instruction(4, Opcode::NullCheck, &[immediate(1)])];
    instructions.extend(body(slots));
    instructions
}
