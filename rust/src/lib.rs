//! Shurtenbo for Rust callers: the proved entry points as safe functions.
//!
//! What each function answers, and what it leaves in the buffers, is proved of the library for every
//! input (docs/PROMISES.md). This package only passes slices on and gives the answer a type.

mod raw;
mod record;

pub use record::{
    read_record, write_record, BinaryOp, Due, Instruction, Opcode, Operand, Record, Terminator,
};

/// Why a call is refused: the numbers of the scope paper. A refused call changes no lent buffer, save
/// the screen's table at 38 and 39.
#[derive(Clone, Copy, Debug, PartialEq, Eq)]
pub struct Refusal {
    pub number: u64,
    pub place: u64,
    pub value: i64,
}

/// The slots of the code and the relocations, two numbers each.
#[derive(Clone, Copy, Debug, PartialEq, Eq)]
pub struct Counts {
    pub slots: usize,
    pub relocations: usize,
}

/// What a unit's head says.
#[derive(Clone, Copy, Debug, PartialEq, Eq)]
pub struct Head {
    pub maps: u16,
    pub blocks: u32,
}

/// One eBPF instruction.
#[derive(Clone, Copy, Debug, PartialEq, Eq)]
pub struct Insn {
    pub code: u8,
    pub dst: u8,
    pub src: u8,
    pub off: i16,
    pub imm: i32,
}

/// The two numbers that a call tells, or its refusal. The value's 64 bits are those of a signed number.
fn told(answer: raw::Answer) -> Result<(u64, u64), Refusal> {
    match answer {
        [0, first, second] => Ok((first, second)),
        [number, place, value] => Err(Refusal { number, place, value: value as i64 }),
    }
}

/// From a unit's bytes to instruction bytes at the front of `code` and pairs of byte offset and map
/// number at the front of `relocs`; the rest of both is left as it was.
pub fn compile(unit: &[u8], code: &mut [u8], relocs: &mut [u32]) -> Result<Counts, Refusal> {
    let mut answer = [0; 3];
    // SAFETY: each pointer comes with the length of the slice that it was taken from, and the library
    // keeps none of them.
    unsafe {
        raw::shurtenbo_compile(
            unit.as_ptr(),
            unit.len(),
            code.as_mut_ptr(),
            code.len(),
            relocs.as_mut_ptr(),
            relocs.len(),
            &mut answer,
        );
    }
    told(answer).map(|(slots, relocations)| Counts {
        slots: slots as usize,
        relocations: relocations as usize,
    })
}

/// Judges code from anyone. For yes, 38 and 39 the table's front holds per slot the registers that are
/// readable on every path to it, bit r for register r, 2,047 where no path comes.
pub fn screen(code: &[u8], relocs: &[u32], table: &mut [u16]) -> Result<(), Refusal> {
    let mut answer = [0; 3];
    // SAFETY: as in `compile`.
    unsafe {
        raw::shurtenbo_screen(
            code.as_ptr(),
            code.len(),
            relocs.as_ptr(),
            relocs.len(),
            table.as_mut_ptr(),
            table.len(),
            &mut answer,
        );
    }
    told(answer).map(|_| ())
}

/// Reads a whole unit.
pub fn read_unit(unit: &[u8]) -> Result<Head, Refusal> {
    let mut answer = [0; 3];
    // SAFETY: as in `compile`.
    unsafe { raw::shurtenbo_read_unit(unit.as_ptr(), unit.len(), &mut answer) };
    told(answer).map(|(maps, blocks)| Head { maps: maps as u16, blocks: blocks as u32 })
}

/// The bytes of a map's name inside the unit, or `None` for no such map.
pub fn map_name(unit: &[u8], map: u32) -> Result<Option<&[u8]>, Refusal> {
    let mut answer = [0; 3];
    // SAFETY: as in `compile`.
    unsafe { raw::shurtenbo_map_name(unit.as_ptr(), unit.len(), map, &mut answer) };
    if answer[0] == raw::NO_SUCH_MAP {
        return Ok(None);
    }
    told(answer).map(|(start, len)| Some(&unit[start as usize..(start + len) as usize]))
}

/// The fields of 8 bytes; `None` for more or fewer.
pub fn decode(bytes: &[u8]) -> Option<Insn> {
    let mut fields = [0; 5];
    let mut answer = [0; 3];
    // SAFETY: as in `compile`.
    unsafe { raw::shurtenbo_decode(bytes.as_ptr(), bytes.len(), &mut fields, &mut answer) };
    let [code, dst, src, off, imm] = fields;
    (answer[0] != raw::NOT_EIGHT).then_some(Insn {
        code: code as u8,
        dst: dst as u8,
        src: src as u8,
        off: off as i16,
        imm: imm as i32,
    })
}

/// The 8 bytes of an instruction; false, and nothing written, where `bytes` has not length 8.
pub fn encode(i: Insn, bytes: &mut [u8]) -> bool {
    let mut answer = [0; 3];
    // SAFETY: as in `compile`.
    unsafe {
        raw::shurtenbo_encode(
            i.code,
            i.dst,
            i.src,
            i.off,
            i.imm,
            bytes.as_mut_ptr(),
            bytes.len(),
            &mut answer,
        );
    }
    answer[0] != raw::NOT_EIGHT
}
