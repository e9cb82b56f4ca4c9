//! One record of the unit file: its value as Rust types, and as the numbers of the C interface.

use crate::{raw, told, Refusal};

#[derive(Clone, Copy, Debug, PartialEq, Eq)]
pub enum Operand {
    Var(u32),
    Immediate(i64),
}

#[derive(Clone, Copy, Debug, PartialEq, Eq)]
pub enum BinaryOp {
    Add,
    Sub,
    Mul,
    Div,
    Mod,
    Shl,
    Shr,
}

/// A map is a number: the place of its record among the maps.
#[derive(Clone, Copy, Debug, PartialEq, Eq)]
pub enum Opcode {
    HelperCall { id: u32 },
    LoadKey,
    Store { size: u8 },
    LoadCtx { offset: i32, size: u8 },
    LoadPacket { offset: i32, size: u8 },
    CopyCtxToMem { offset: i32, size: u32 },
    NullCheck,
    Binary { op: BinaryOp },
    CallMap { map: u32 },
    UpdateMap { map: u32 },
    RingBufReserve { map: u32, size: u32 },
    RingBufSubmit { map: u32 },
}

/// At most eight operands; more are refused as 5.
#[derive(Clone, Debug, PartialEq, Eq)]
pub struct Instruction {
    pub result: u32,
    pub opcode: Opcode,
    pub operands: Vec<Operand>,
}

#[derive(Clone, Copy, Debug, PartialEq, Eq)]
pub enum Terminator {
    Return(Operand),
    Jump(u32),
    Branch { condition: Operand, true_block: u32, false_block: u32 },
}

/// A map's record says where its name lies: in the unit that was read, or in the bytes given to the writer.
#[derive(Clone, Debug, PartialEq, Eq)]
pub enum Record {
    Head { edition: u16, maps: u16, blocks: u32 },
    Map { start: usize, len: usize },
    Block(u32),
    Instruction(Instruction),
    Terminator(Terminator),
}

/// What may stand next in a unit: inside a block, an instruction or its terminator.
#[derive(Clone, Copy, Debug, PartialEq, Eq)]
pub enum Due {
    Head,
    Map,
    Block,
    Inside,
}

// ---- numbers

const OPERATIONS: [BinaryOp; 7] = [
    BinaryOp::Add,
    BinaryOp::Sub,
    BinaryOp::Mul,
    BinaryOp::Div,
    BinaryOp::Mod,
    BinaryOp::Shl,
    BinaryOp::Shr,
];

fn operand(tag: u64, value: u64) -> Operand {
    if tag == 0 {
        Operand::Var(value as u32)
    } else {
        Operand::Immediate(value as i64)
    }
}

fn numbers_of(o: Operand) -> [u64; 2] {
    match o {
        Operand::Var(v) => [0, v.into()],
        Operand::Immediate(z) => [1, z as u64],
    }
}

/// The opcode's number, and its small, offset and number.
fn opcode_numbers(o: Opcode) -> [u64; 4] {
    let bits = |offset: i32| i64::from(offset) as u64;
    match o {
        Opcode::HelperCall { id } => [1, 0, 0, id.into()],
        Opcode::LoadKey => [2, 0, 0, 0],
        Opcode::Store { size } => [3, size.into(), 0, 0],
        Opcode::LoadCtx { offset, size } => [4, size.into(), bits(offset), 0],
        Opcode::LoadPacket { offset, size } => [5, size.into(), bits(offset), 0],
        Opcode::CopyCtxToMem { offset, size } => [6, 0, bits(offset), size.into()],
        Opcode::NullCheck => [7, 0, 0, 0],
        Opcode::Binary { op } => [8, op as u64, 0, 0],
        Opcode::CallMap { map } => [9, 0, 0, map.into()],
        Opcode::UpdateMap { map } => [10, 0, 0, map.into()],
        Opcode::RingBufReserve { map, size } => [11, 0, map.into(), size.into()],
        Opcode::RingBufSubmit { map } => [12, 0, 0, map.into()],
    }
}

fn opcode([code, small, offset, number]: [u64; 4]) -> Opcode {
    let size = small as u8;
    let id = number as u32;
    let offset = offset as i64 as i32;
    match code {
        1 => Opcode::HelperCall { id },
        2 => Opcode::LoadKey,
        3 => Opcode::Store { size },
        4 => Opcode::LoadCtx { offset, size },
        5 => Opcode::LoadPacket { offset, size },
        6 => Opcode::CopyCtxToMem { offset, size: id },
        7 => Opcode::NullCheck,
        8 => Opcode::Binary { op: OPERATIONS[small as usize] },
        9 => Opcode::CallMap { map: id },
        10 => Opcode::UpdateMap { map: id },
        11 => Opcode::RingBufReserve { map: offset as u32, size: id },
        _ => Opcode::RingBufSubmit { map: id },
    }
}

/// A record of more than eight operands has a count that no record has, so that the writer refuses it.
fn fields_of(r: &Record) -> [u64; 24] {
    let mut fields = [0; 24];
    let mut put = |from: usize, numbers: &[u64]| {
        fields[from..from + numbers.len()].copy_from_slice(numbers);
    };
    match r {
        Record::Head { edition, maps, blocks } => {
            put(0, &[1, (*edition).into(), (*maps).into(), (*blocks).into()]);
        }
        Record::Map { start, len } => put(0, &[2, *start as u64, *len as u64]),
        Record::Block(id) => put(0, &[3, (*id).into()]),
        Record::Instruction(i) => {
            put(0, &[4, i.result.into()]);
            put(2, &opcode_numbers(i.opcode));
            put(6, &[i.operands.len() as u64]);
            for (k, &o) in i.operands.iter().take(8).enumerate() {
                put(7 + 2 * k, &numbers_of(o));
            }
        }
        Record::Terminator(Terminator::Return(o)) => {
            put(0, &[5, 0]);
            put(2, &numbers_of(*o));
        }
        Record::Terminator(Terminator::Jump(target)) => put(0, &[5, 1, (*target).into()]),
        Record::Terminator(Terminator::Branch { condition, true_block, false_block }) => {
            put(0, &[5, 2]);
            put(2, &numbers_of(*condition));
            put(4, &[(*true_block).into(), (*false_block).into()]);
        }
    }
    fields
}

/// The record of fields that the reader filled.
fn record_of(f: &[u64; 24]) -> Record {
    let id = |k: usize| f[k] as u32;
    match (f[0], f[1]) {
        (1, _) => Record::Head { edition: f[1] as u16, maps: f[2] as u16, blocks: id(3) },
        (2, _) => Record::Map { start: f[1] as usize, len: f[2] as usize },
        (3, _) => Record::Block(id(1)),
        (4, _) => Record::Instruction(Instruction {
            result: id(1),
            opcode: opcode([f[2], f[3], f[4], f[5]]),
            operands: (0..f[6] as usize).map(|k| operand(f[7 + 2 * k], f[8 + 2 * k])).collect(),
        }),
        (_, 0) => Record::Terminator(Terminator::Return(operand(f[2], f[3]))),
        (_, 1) => Record::Terminator(Terminator::Jump(id(2))),
        (_, _) => Record::Terminator(Terminator::Branch {
            condition: operand(f[2], f[3]),
            true_block: id(4),
            false_block: id(5),
        }),
    }
}

// ---- calls

/// The record that is due at a byte, in a unit of so many maps, and the byte after it.
pub fn read_record(
    unit: &[u8],
    at: usize,
    due: Due,
    maps: u16,
) -> Result<(Record, usize), Refusal> {
    let mut fields = [0; 24];
    let mut answer = [0; 3];
    // SAFETY: the pointer comes with the length of the slice that it was taken from, and the library
    // keeps none of them.
    unsafe {
        raw::shurtenbo_read_record(
            unit.as_ptr(),
            unit.len(),
            at,
            due as u8,
            maps,
            &mut fields,
            &mut answer,
        );
    }
    told(answer).map(|(next, _)| (record_of(&fields), next as usize))
}

/// Writes a record at the buffer's front, in a unit of so many maps; a map's name lies in `names`.
/// Answers the bytes written; a refused call changes nothing.
pub fn write_record(
    r: &Record,
    names: &[u8],
    maps: u16,
    buffer: &mut [u8],
) -> Result<usize, Refusal> {
    let fields = fields_of(r);
    let mut answer = [0; 3];
    // SAFETY: as in `read_record`.
    unsafe {
        raw::shurtenbo_write_record(
            &fields,
            names.as_ptr(),
            names.len(),
            maps,
            buffer.as_mut_ptr(),
            buffer.len(),
            &mut answer,
        );
    }
    told(answer).map(|(bytes, _)| bytes as usize)
}
