//! Short ways to write units down.

use crate::unit::{Block, Instruction, Opcode, Operand, Terminator, Unit};

pub fn variable(number: u32) -> Operand {
    Operand::Variable(number)
}

pub fn immediate(value: i64) -> Operand {
    Operand::Immediate(value)
}

pub fn instruction(result: u32, opcode: Opcode, operands: &[Operand]) -> Instruction {
    Instruction { result, opcode, operands: operands.to_vec() }
}

pub fn block(id: u32, instructions: Vec<Instruction>, terminator: Terminator) -> Block {
    Block { id, instructions, terminator }
}

/// A block with no instructions.
pub fn bare(id: u32, terminator: Terminator) -> Block {
    block(id, vec![], terminator)
}

pub fn returns(value: i64) -> Terminator {
    Terminator::Return(immediate(value))
}

pub fn jump(target: u32) -> Terminator {
    Terminator::Jump(target)
}

pub fn branch(condition: Operand, on_true: u32, on_false: u32) -> Terminator {
    Terminator::Branch { condition, on_true, on_false }
}

/// A unit whose maps are named a, b, c and so on.
pub fn unit(map_count: usize, blocks: Vec<Block>) -> Unit {
    let maps = (0..map_count).map(map_name).collect();
    Unit { maps, blocks }
}

/// Names of one letter; after z of two.
fn map_name(number: usize) -> Vec<u8> {
    let letter = |n: usize| b'a' + (n % 26) as u8;
    match number / 26 {
        0 => vec![letter(number)],
        tens => vec![letter(tens - 1), letter(number)],
    }
}

/// One block of one instruction that returns a variable no instruction writes, so that the frame
/// has a cell beside those of the instruction.
pub fn single(opcode: Opcode, operands: &[Operand]) -> Unit {
    let only = block(1, vec![instruction(2, opcode, operands)], Terminator::Return(variable(5)));
    unit(2, vec![only])
}
