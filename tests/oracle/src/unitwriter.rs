//! Writing a unit file. The head's counts are those of the unit; nothing is judged here, so that
//! units beyond 01's limits (65 maps, nine operands) can be written for the reader to refuse.

use crate::unit::{BinaryOp, Block, Instruction, Opcode, Operand, Terminator, Unit};
use crate::unitfile::{BLOCK, HEAD, INSTRUCTION, MAP, TERMINATOR};

pub fn write(unit: &Unit) -> Vec<u8> {
    records(unit).concat()
}

/// The file's records, each with its length and kind, in file order.
pub fn records(unit: &Unit) -> Vec<Vec<u8>> {
    let mut records = vec![head(1, unit.maps.len() as u16, unit.blocks.len() as u32)];
    records.extend(unit.maps.iter().map(|name| record(MAP, name)));
    for Block { id, instructions, terminator } in &unit.blocks {
        records.push(record(BLOCK, &id.to_le_bytes()));
        records.extend(instructions.iter().map(instruction_record));
        records.push(terminator_record(terminator));
    }
    records
}

pub fn record(kind: u16, payload: &[u8]) -> Vec<u8> {
    let length = payload.len() as u16;
    [&length.to_le_bytes(), &kind.to_le_bytes(), payload].concat()
}

pub fn head(edition: u16, maps: u16, blocks: u32) -> Vec<u8> {
    let payload = [&edition.to_le_bytes()[..], &maps.to_le_bytes(), &blocks.to_le_bytes()].concat();
    record(HEAD, &payload)
}

fn instruction_record(instruction: &Instruction) -> Vec<u8> {
    let (code, small, offset, number) = fields(&instruction.opcode);
    let mut payload = instruction.result.to_le_bytes().to_vec();
    payload.extend([code, small, instruction.operands.len() as u8, 0]);
    payload.extend(offset.to_le_bytes());
    payload.extend(number.to_le_bytes());
    payload.extend(instruction.operands.iter().flat_map(operand));
    record(INSTRUCTION, &payload)
}

/// Opcode, small, offset, number.
fn fields(opcode: &Opcode) -> (u8, u8, i32, u32) {
    match *opcode {
        Opcode::HelperCall { id } => (1, 0, 0, id),
        Opcode::LoadKey => (2, 0, 0, 0),
        Opcode::Store { size } => (3, size, 0, 0),
        Opcode::LoadCtx { offset, size } => (4, size, offset, 0),
        Opcode::LoadPacket { offset, size } => (5, size, offset, 0),
        Opcode::CopyCtxToMem { offset, size } => (6, 0, offset, size),
        Opcode::NullCheck => (7, 0, 0, 0),
        Opcode::Binary { op } => (8, binary_number(op), 0, 0),
        Opcode::CallMap { map } => (9, 0, 0, map),
        Opcode::UpdateMap { map } => (10, 0, 0, map),
        Opcode::RingBufReserve { map, size } => (11, 0, map as i32, size),
        Opcode::RingBufSubmit { map } => (12, 0, 0, map),
    }
}

fn binary_number(op: BinaryOp) -> u8 {
    match op {
        BinaryOp::Add => 0,
        BinaryOp::Sub => 1,
        BinaryOp::Mul => 2,
        BinaryOp::Div => 3,
        BinaryOp::Mod => 4,
        BinaryOp::Shl => 5,
        BinaryOp::Shr => 6,
    }
}

fn terminator_record(terminator: &Terminator) -> Vec<u8> {
    let payload = match terminator {
        Terminator::Return(returned) => [&[0][..], &operand(returned)].concat(),
        Terminator::Jump(target) => [&[1][..], &target.to_le_bytes()].concat(),
        Terminator::Branch { condition, on_true, on_false } => {
            let targets = [on_true.to_le_bytes(), on_false.to_le_bytes()].concat();
            [&[2][..], &operand(condition), &targets].concat()
        }
    };
    record(TERMINATOR, &payload)
}

fn operand(operand: &Operand) -> [u8; 9] {
    let (tag, content) = match *operand {
        Operand::Variable(variable) => (0, i64::from(variable)),
        Operand::Immediate(value) => (1, value),
    };
    let mut bytes = [tag; 9];
    bytes[1..].copy_from_slice(&content.to_le_bytes());
    bytes
}
