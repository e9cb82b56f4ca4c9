//! The published back end from a unit file's bytes on: a plain reader that makes the back end's own
//! types at once, then the back end. It tells no more of a fault than the number and the place.

use original::ast::Type;
use original::emit::ebpf::tracepoint::{compile_tracepoint, CompiledProgram};
use original::ir::{
    BasicBlock, BinaryOp, BlockId, Instruction, Opcode, Operand, Terminator, UnitIr, VarId,
};

pub enum Refused {
    Reading { number: u32, place: usize },
    Lowering(String),
}

pub fn compile(file: &[u8]) -> Result<CompiledProgram, Refused> {
    let unit = read(file)?;
    compile_tracepoint(&unit).map_err(Refused::Lowering)
}

fn refused<T>(number: u32, place: usize) -> Result<T, Refused> {
    Err(Refused::Reading { number, place })
}

fn read(file: &[u8]) -> Result<UnitIr, Refused> {
    if file.len() > 262_144 {
        return refused(1, 0);
    }
    let mut records = Records { file, at: 0 };
    let first = records.due()?;
    let Some((map_count, block_count)) = head(&first) else {
        return refused(3, first.place);
    };

    let mut names: Vec<&[u8]> = Vec::with_capacity(map_count);
    for _ in 0..map_count {
        let name = records.due()?;
        if name.kind != 2 {
            return refused(4, name.place);
        }
        if name.payload.len() > 64 || names.contains(&name.payload) {
            return refused(5, name.place);
        }
        names.push(name.payload);
    }
    let names: Vec<String> =
        names.into_iter().map(|name| String::from_utf8_lossy(name).into_owned()).collect();

    let mut blocks = Vec::with_capacity(block_count);
    for _ in 0..block_count {
        blocks.push(block(&mut records, &names)?);
    }
    if records.at < file.len() {
        return refused(4, records.at);
    }
    Ok(UnitIr::of_blocks(blocks))
}

struct Record<'a> {
    place: usize,
    kind: u16,
    payload: &'a [u8],
}

struct Records<'a> {
    file: &'a [u8],
    at: usize,
}

impl<'a> Records<'a> {
    fn due(&mut self) -> Result<Record<'a>, Refused> {
        let place = self.at;
        let Some((&[l0, l1, k0, k1], rest)) = self.file[place..].split_first_chunk() else {
            return refused(2, place);
        };
        let length = usize::from(u16::from_le_bytes([l0, l1]));
        let Some(payload) = rest.get(..length) else {
            return refused(2, place);
        };
        self.at = place + 4 + length;
        Ok(Record { place, kind: u16::from_le_bytes([k0, k1]), payload })
    }
}

fn head(record: &Record) -> Option<(usize, usize)> {
    let bytes: &[u8; 8] = record.payload.try_into().ok()?;
    let [e0, e1, m0, m1, b0, b1, b2, b3] = *bytes;
    let maps = u16::from_le_bytes([m0, m1]);
    let blocks = u32::from_le_bytes([b0, b1, b2, b3]);
    let good =
        record.kind == 1 && u16::from_le_bytes([e0, e1]) == 1 && maps <= 64 && blocks <= 1_024;
    good.then_some((usize::from(maps), blocks as usize))
}

fn block(records: &mut Records, names: &[String]) -> Result<BasicBlock, Refused> {
    let start = records.due()?;
    if start.kind != 3 {
        return refused(4, start.place);
    }
    let Ok(id) = start.payload.try_into() else {
        return refused(5, start.place);
    };
    let id = BlockId(u32::from_le_bytes(id));
    let mut instructions = Vec::new();
    loop {
        let record = records.due()?;
        match record.kind {
            4 => match instruction(record.payload, names) {
                Some(instruction) => instructions.push(instruction),
                None => return refused(5, record.place),
            },
            5 => match terminator(record.payload) {
                Some(terminator) => return Ok(BasicBlock { id, instructions, terminator }),
                None => return refused(5, record.place),
            },
            _ => return refused(4, record.place),
        }
    }
}

fn instruction(payload: &[u8], names: &[String]) -> Option<Instruction> {
    let (fixed, operands) = payload.split_first_chunk::<16>()?;
    let word = |at: usize| [fixed[at], fixed[at + 1], fixed[at + 2], fixed[at + 3]];
    let result = VarId(u32::from_le_bytes(word(0)));
    let [code, small, operand_count, reserved] = word(4);
    let offset = i32::from_le_bytes(word(8));
    let number = u32::from_le_bytes(word(12));
    if operand_count > 8 || reserved != 0 || operands.len() != 9 * usize::from(operand_count) {
        return None;
    }
    let name = |number: usize| names.get(number).cloned();
    let opcode = match (code, small, offset, number) {
        (1, 0, 0, id) => Opcode::HelperCall { id },
        (2, 0, 0, 0) => Opcode::LoadKey,
        (3, size, 0, 0) => Opcode::Store { size },
        (4, size, offset, 0) => Opcode::LoadCtx { offset, size },
        (5, size, offset, 0) => Opcode::LoadPacket { offset, size },
        (6, 0, offset, size) => Opcode::CopyCtxToMem { offset, size },
        (7, 0, 0, 0) => Opcode::NullCheck,
        (8, op, 0, 0) => Opcode::Binary { op: binary_op(op)? },
        (9, 0, 0, map) => Opcode::CallMap { map_name: name(map as usize)? },
        (10, 0, 0, map) => Opcode::UpdateMap { map_name: name(map as usize)? },
        (11, 0, map, size) => {
            Opcode::RingBufReserve { map_name: name(usize::try_from(map).ok()?)?, size }
        }
        (12, 0, 0, map) => Opcode::RingBufSubmit { map_name: name(map as usize)? },
        _ => return None,
    };
    let mut read = Vec::with_capacity(usize::from(operand_count));
    for bytes in operands.chunks_exact(9) {
        read.push(operand(bytes)?);
    }
    Some(Instruction { result, opcode, operands: read, result_type: Type::U64 })
}

fn binary_op(number: u8) -> Option<BinaryOp> {
    Some(match number {
        0 => BinaryOp::Add,
        1 => BinaryOp::Sub,
        2 => BinaryOp::Mul,
        3 => BinaryOp::Div,
        4 => BinaryOp::Mod,
        5 => BinaryOp::Shl,
        6 => BinaryOp::Shr,
        _ => return None,
    })
}

fn operand(bytes: &[u8]) -> Option<Operand> {
    let (&tag, content) = bytes.split_first()?;
    let content = u64::from_le_bytes(content.try_into().ok()?);
    match tag {
        0 => u32::try_from(content).ok().map(|variable| Operand::Var(VarId(variable))),
        1 => Some(Operand::Immediate(content as i64)),
        _ => None,
    }
}

fn terminator(payload: &[u8]) -> Option<Terminator> {
    let target = |bytes: &[u8]| Some(BlockId(u32::from_le_bytes(bytes.try_into().ok()?)));
    let (&form, rest) = payload.split_first()?;
    match (form, rest.len()) {
        (0, 9) => Some(Terminator::Return(operand(rest)?)),
        (1, 4) => Some(Terminator::Jump(target(rest)?)),
        (2, 17) => Some(Terminator::Branch {
            condition: operand(&rest[..9])?,
            true_block: target(&rest[9..13])?,
            false_block: target(&rest[13..])?,
        }),
        _ => None,
    }
}
