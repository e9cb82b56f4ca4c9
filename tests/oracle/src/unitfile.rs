//! Reading a unit file, written from 01: refusals 1 to 5, else the unit and its records' places.

use crate::answer::Refusal;
use crate::unit::{BinaryOp, Block, Instruction, Opcode, Operand, Places, Terminator, Unit};

pub const LONGEST_FILE: usize = 262_144;
pub const MOST_MAPS: u16 = 64;
pub const MOST_BLOCKS: u32 = 1_024;
pub const LONGEST_NAME: usize = 64;
pub const MOST_OPERANDS: u8 = 8;

/// The five kinds of record.
pub const HEAD: u16 = 1;
pub const MAP: u16 = 2;
pub const BLOCK: u16 = 3;
pub const INSTRUCTION: u16 = 4;
pub const TERMINATOR: u16 = 5;

pub fn read(file: &[u8]) -> Result<(Unit, Places), Refusal> {
    if file.len() > LONGEST_FILE {
        return Err(refused(1, 0));
    }
    let mut records = Records { file, at: 0 };

    let first = records.due()?;
    let Some((map_count, block_count)) = head(&first) else {
        return Err(refused(3, first.place));
    };

    let mut maps: Vec<Vec<u8>> = Vec::new();
    for _ in 0..map_count {
        let name = records.due_of(&[MAP])?;
        if name.payload.len() > LONGEST_NAME || maps.iter().any(|other| other == name.payload) {
            return Err(refused(5, name.place));
        }
        maps.push(name.payload.to_vec());
    }

    let mut blocks = Vec::new();
    let mut places = Vec::new();
    for _ in 0..block_count {
        let (block, places_in_block) = block(&mut records, map_count)?;
        blocks.push(block);
        places.push(places_in_block);
    }

    if records.at < file.len() {
        return Err(refused(4, records.at));
    }
    Ok((Unit { maps, blocks }, Places(places)))
}

fn refused(number: u32, place: usize) -> Refusal {
    Refusal { number, place: place as u32, value: 0 }
}

struct RawRecord<'a> {
    place: usize,
    kind: u16,
    payload: &'a [u8],
}

struct Records<'a> {
    file: &'a [u8],
    at: usize,
}

impl<'a> Records<'a> {
    /// The next record, of whatever kind; refusal 2 where there is none whole.
    fn due(&mut self) -> Result<RawRecord<'a>, Refusal> {
        let place = self.at;
        let mut rest = Fields { bytes: &self.file[place..] };
        let record = (|| {
            let length = rest.u16()?;
            let kind = rest.u16()?;
            let payload = rest.take(usize::from(length))?;
            Some(RawRecord { place, kind, payload })
        })();
        let Some(record) = record else {
            return Err(refused(2, place));
        };
        self.at = self.file.len() - rest.bytes.len();
        Ok(record)
    }

    /// The next record, refusal 4 unless its kind is one of those due.
    fn due_of(&mut self, kinds: &[u16]) -> Result<RawRecord<'a>, Refusal> {
        let record = self.due()?;
        if !kinds.contains(&record.kind) {
            return Err(refused(4, record.place));
        }
        Ok(record)
    }
}

fn block(records: &mut Records, map_count: u16) -> Result<(Block, Vec<u32>), Refusal> {
    let start = records.due_of(&[BLOCK])?;
    let Some(id) = whole(start.payload, Fields::u32) else {
        return Err(refused(5, start.place));
    };
    let mut instructions = Vec::new();
    let mut places = Vec::new();
    loop {
        let record = records.due_of(&[INSTRUCTION, TERMINATOR])?;
        places.push(record.place as u32);
        if record.kind == INSTRUCTION {
            let read = whole(record.payload, |fields| instruction(fields, map_count));
            let Some(instruction) = read else {
                return Err(refused(5, record.place));
            };
            instructions.push(instruction);
        } else {
            let Some(terminator) = whole(record.payload, terminator) else {
                return Err(refused(5, record.place));
            };
            return Ok((Block { id, instructions, terminator }, places));
        }
    }
}

fn head(record: &RawRecord) -> Option<(u16, u32)> {
    if record.kind != HEAD {
        return None;
    }
    let (edition, maps, blocks) =
        whole(record.payload, |fields| Some((fields.u16()?, fields.u16()?, fields.u32()?)))?;
    (edition == 1 && maps <= MOST_MAPS && blocks <= MOST_BLOCKS).then_some((maps, blocks))
}

fn instruction(fields: &mut Fields, map_count: u16) -> Option<Instruction> {
    let result = fields.u32()?;
    let code = fields.u8()?;
    let small = fields.u8()?;
    let operand_count = fields.u8()?;
    let reserved = fields.u8()?;
    let offset = fields.i32()?;
    let number = fields.u32()?;
    if operand_count > MOST_OPERANDS || reserved != 0 {
        return None;
    }
    let map = |number: u32| (number < u32::from(map_count)).then_some(number);

    // A field that the opcode does not use must be zero; each arm names the ones it uses.
    let opcode = match (code, small, offset, number) {
        (1, 0, 0, id) => Opcode::HelperCall { id },
        (2, 0, 0, 0) => Opcode::LoadKey,
        (3, size, 0, 0) => Opcode::Store { size },
        (4, size, offset, 0) => Opcode::LoadCtx { offset, size },
        (5, size, offset, 0) => Opcode::LoadPacket { offset, size },
        (6, 0, offset, size) => Opcode::CopyCtxToMem { offset, size },
        (7, 0, 0, 0) => Opcode::NullCheck,
        (8, op, 0, 0) => Opcode::Binary { op: *BinaryOp::ALL.get(usize::from(op))? },
        (9, 0, 0, number) => Opcode::CallMap { map: map(number)? },
        (10, 0, 0, number) => Opcode::UpdateMap { map: map(number)? },
        (11, 0, offset, size) => {
            Opcode::RingBufReserve { map: map(u32::try_from(offset).ok()?)?, size }
        }
        (12, 0, 0, number) => Opcode::RingBufSubmit { map: map(number)? },
        _ => return None,
    };
    let operands = (0..operand_count).map(|_| operand(fields)).collect::<Option<_>>()?;
    Some(Instruction { result, opcode, operands })
}

fn terminator(fields: &mut Fields) -> Option<Terminator> {
    match fields.u8()? {
        0 => Some(Terminator::Return(operand(fields)?)),
        1 => Some(Terminator::Jump(fields.u32()?)),
        2 => Some(Terminator::Branch {
            condition: operand(fields)?,
            on_true: fields.u32()?,
            on_false: fields.u32()?,
        }),
        _ => None,
    }
}

fn operand(fields: &mut Fields) -> Option<Operand> {
    match fields.u8()? {
        0 => {
            let variable = fields.u32()?;
            (fields.u32()? == 0).then_some(Operand::Variable(variable))
        }
        1 => Some(Operand::Immediate(fields.i64()?)),
        _ => None,
    }
}

/// What `read` makes of a payload, if it takes all of it.
fn whole<'a, T>(payload: &'a [u8], read: impl FnOnce(&mut Fields<'a>) -> Option<T>) -> Option<T> {
    let mut fields = Fields { bytes: payload };
    let value = read(&mut fields)?;
    fields.bytes.is_empty().then_some(value)
}

/// Little-endian numbers off the front of some bytes; None once they run out.
struct Fields<'a> {
    bytes: &'a [u8],
}

impl<'a> Fields<'a> {
    fn take(&mut self, count: usize) -> Option<&'a [u8]> {
        let (front, rest) = self.bytes.split_at_checked(count)?;
        self.bytes = rest;
        Some(front)
    }

    fn array<const N: usize>(&mut self) -> Option<[u8; N]> {
        self.take(N)?.try_into().ok()
    }

    fn u8(&mut self) -> Option<u8> {
        self.array().map(u8::from_le_bytes)
    }

    fn u16(&mut self) -> Option<u16> {
        self.array().map(u16::from_le_bytes)
    }

    fn u32(&mut self) -> Option<u32> {
        self.array().map(u32::from_le_bytes)
    }

    fn i32(&mut self) -> Option<i32> {
        self.array().map(i32::from_le_bytes)
    }

    fn i64(&mut self) -> Option<i64> {
        self.array().map(i64::from_le_bytes)
    }
}
