//! 01 a second time, from its text alone: each definition below is one of its sentences. It shares
//! with the oracle the step from an accepted file to a unit and nothing else, so that comparing
//! the two checks the oracle's reader, places and values, and 01's wording.

mod reading;

use crate::answer::{Answer, Lowered, Refusal};
use crate::unit::{
    BinaryOp, Block, Instruction, Opcode, Operand, Places, Record, Terminator, Unit,
};
use crate::unitfile;
use std::collections::BTreeSet;

const MOST_VARIABLES: usize = 56;
const SCRATCH_CELLS: usize = 8;

const R0: u8 = 0;
const R1: u8 = 1;
const R2: u8 = 2;
const R3: u8 = 3;
const R4: u8 = 4;
const R6: u8 = 6;
const R10: u8 = 10;

/// The answer where the buffers are long enough.
pub fn lowering(file: &[u8]) -> Answer {
    let places = Places(reading::judge(file)?);
    let (unit, _) = unitfile::read(file).expect("the two readers accept the same files");
    let variables = variables(&unit, &places)?;
    let reached = reached(&unit);
    let mut code = Code {
        variables: variables.into_iter().collect(),
        conditions: conditions(&unit),
        slots: vec![Slot::mov_reg(R6, R1)],
        relocs: vec![],
        scratch_taken: 0,
    };

    // Emitted blocks with their first slots, and the jumps in patch order.
    let mut starts = vec![];
    let mut jumps = vec![];
    for (block, content) in unit.blocks.iter().enumerate() {
        if !reached.contains(&content.id) {
            continue;
        }
        starts.push((content.id, code.slots.len()));
        for (index, instruction) in content.instructions.iter().enumerate() {
            let place = places.of(Record { block, index });
            code.instruction(instruction).map_err(|fault| fault.at(place))?;
        }
        let place = places.of_terminator(block);
        let own = code.terminator(&content.terminator).map_err(|fault| fault.at(place))?;
        jumps.extend(own.into_iter().map(|(slot, target)| (slot, target, place)));
    }

    for (own, target, place) in jumps {
        let fault = |number| Fault { number, value: i64::from(target) }.at(place);
        let landing = starts.iter().rev().find(|(id, _)| *id == target).ok_or(fault(18))?.1;
        let distance = landing as i64 - own as i64 - 1;
        code.slots[own].offset = i16::try_from(distance).map_err(|_| fault(19))?;
    }
    let bytes = code.slots.iter().flat_map(Slot::bytes).collect();
    Ok(Lowered { code: bytes, relocs: code.relocs })
}

/// "Variables are collected over all blocks, reached or not: results of every instruction,
/// operands, return and condition variables." Refusal 10 at the record bringing the 57th.
fn variables(unit: &Unit, places: &Places) -> Result<BTreeSet<u32>, Refusal> {
    let mut variables = BTreeSet::new();
    for record in unit.records() {
        let mut operands = vec![];
        match unit.instruction(record) {
            Some(instruction) => {
                operands.push(Operand::Variable(instruction.result));
                operands.extend(&instruction.operands);
            }
            None => match unit.blocks[record.block].terminator {
                Terminator::Return(operand) => operands.push(operand),
                Terminator::Jump(_) => {}
                Terminator::Branch { condition, .. } => operands.push(condition),
            },
        }
        for operand in operands {
            if let Operand::Variable(variable) = operand {
                variables.insert(variable);
            }
        }
        if variables.len() > MOST_VARIABLES {
            return Err(Fault { number: 10, value: 57 }.at(places.of(record)));
        }
    }
    Ok(variables)
}

/// "Reached: the first block's id, then targets. An id means the last block that has it."
fn reached(unit: &Unit) -> BTreeSet<u32> {
    let mut reached: BTreeSet<u32> =
        unit.blocks.first().map(|block| block.id).into_iter().collect();
    loop {
        let meant = |id: &u32| unit.blocks.iter().rev().find(|block| block.id == *id);
        let targets: Vec<u32> = reached
            .iter()
            .filter_map(meant)
            .flat_map(|block| block.terminator.targets_in_patch_order())
            .collect();
        let before = reached.len();
        reached.extend(targets);
        if reached.len() == before {
            return reached;
        }
    }
}

/// The variables that are "a branch condition of any block, reached or not".
fn conditions(unit: &Unit) -> BTreeSet<u32> {
    let condition = |block: &Block| match block.terminator {
        Terminator::Branch { condition: Operand::Variable(variable), .. } => Some(variable),
        _ => None,
    };
    unit.blocks.iter().filter_map(condition).collect()
}

/// A refusal that does not know its place yet.
#[derive(Clone, Copy)]
struct Fault {
    number: u32,
    value: i64,
}

impl Fault {
    fn at(self, place: u32) -> Refusal {
        Refusal { number: self.number, place, value: self.value }
    }
}

#[derive(Clone, Copy)]
struct Slot {
    opcode: u8,
    dst: u8,
    src: u8,
    offset: i16,
    imm: i32,
}

/// RFC 9669's opcode bytes, by their fields.
impl Slot {
    const fn new(opcode: u8, dst: u8, src: u8, offset: i16, imm: i32) -> Slot {
        Slot { opcode, dst, src, offset, imm }
    }

    fn mov_imm(dst: u8, imm: i32) -> Slot {
        Slot::new(0xb7, dst, 0, 0, imm)
    }

    fn mov_reg(dst: u8, src: u8) -> Slot {
        Slot::new(0xbf, dst, src, 0, 0)
    }

    fn add_imm(dst: u8, imm: i32) -> Slot {
        Slot::new(0x07, dst, 0, 0, imm)
    }

    fn ldx(size: u8, dst: u8, src: u8, offset: i16) -> Option<Slot> {
        Some(Slot::new(0x61 | size_bits(size)?, dst, src, offset, 0))
    }

    fn stx(size: u8, dst: u8, src: u8, offset: i16) -> Option<Slot> {
        Some(Slot::new(0x63 | size_bits(size)?, dst, src, offset, 0))
    }

    fn call(helper: i32) -> Slot {
        Slot::new(0x85, 0, 0, 0, helper)
    }

    fn exit() -> Slot {
        Slot::new(0x95, 0, 0, 0, 0)
    }

    fn ja(offset: i16) -> Slot {
        Slot::new(0x05, 0, 0, offset, 0)
    }

    fn jeq_0(dst: u8, offset: i16) -> Slot {
        Slot::new(0x15, dst, 0, offset, 0)
    }

    fn jne_0(dst: u8) -> Slot {
        Slot::new(0x55, dst, 0, 0, 0)
    }

    fn bytes(&self) -> [u8; 8] {
        let offset = self.offset.to_le_bytes();
        let imm = self.imm.to_le_bytes();
        let registers = self.src << 4 | self.dst;
        [self.opcode, registers, offset[0], offset[1], imm[0], imm[1], imm[2], imm[3]]
    }
}

/// Bits 3 and 4 of a load's or store's opcode.
fn size_bits(size: u8) -> Option<u8> {
    match size {
        4 => Some(0x00),
        2 => Some(0x08),
        1 => Some(0x10),
        8 => Some(0x18),
        _ => None,
    }
}

/// The operation in the high four bits, class ALU64 in the low three.
fn alu64(op: BinaryOp) -> u8 {
    match op {
        BinaryOp::Add => 0x07,
        BinaryOp::Sub => 0x17,
        BinaryOp::Mul => 0x27,
        BinaryOp::Div => 0x37,
        BinaryOp::Shl => 0x67,
        BinaryOp::Shr => 0x77,
        BinaryOp::Mod => 0x97,
    }
}

const SOURCE_IS_REGISTER: u8 = 0x08;

struct Code {
    /// Ascending.
    variables: Vec<u32>,
    conditions: BTreeSet<u32>,
    slots: Vec<Slot>,
    relocs: Vec<(u32, u32)>,
    scratch_taken: usize,
}

/// How many operands an opcode takes.
enum Count {
    Any,
    First,
    Exactly(usize),
}

impl Code {
    fn instruction(&mut self, instruction: &Instruction) -> Result<(), Fault> {
        let Instruction { result, opcode, operands } = instruction;
        let load_fault = |size: u8| Fault { number: 14, value: i64::from(size) };
        check_count(opcode, operands.len())?;
        match *opcode {
            Opcode::Binary { op } => {
                self.load(R0, operands[0])?;
                if let Operand::Immediate(value) = operands[1] {
                    self.push(Slot::new(alu64(op), R0, 0, 0, in_i32(value)?));
                } else {
                    self.load(R1, operands[1])?;
                    self.push(Slot::new(alu64(op) | SOURCE_IS_REGISTER, R0, R1, 0, 0));
                }
            }
            Opcode::LoadKey => {
                self.load(R1, operands[0])?;
                self.push(Slot::ldx(8, R0, R1, 0).ok_or(load_fault(8))?);
            }
            Opcode::Store { size } => {
                self.load(R1, operands[0])?;
                self.load(R2, operands[1])?;
                let fault = Fault { number: 15, value: i64::from(size) };
                self.push(Slot::stx(size, R1, R2, 0).ok_or(fault)?);
                return Ok(()); // "Result not written."
            }
            Opcode::LoadCtx { offset, size } | Opcode::LoadPacket { offset, size } => {
                let load = Slot::ldx(size, R0, R6, 0).ok_or(load_fault(size))?;
                let fault = Fault { number: 13, value: i64::from(offset) };
                self.push(Slot { offset: i16::try_from(offset).map_err(|_| fault)?, ..load });
            }
            Opcode::HelperCall { id } => {
                for (register, operand) in [R1, R2, R3].into_iter().zip(operands) {
                    self.load(register, *operand)?;
                }
                self.push(Slot::call(id as i32));
            }
            Opcode::CallMap { map } => {
                self.map(map);
                self.addr(R2, operands[0])?;
                self.push(Slot::call(1));
            }
            Opcode::UpdateMap { map } => {
                self.map(map);
                self.addr(R2, operands[0])?;
                self.addr(R3, operands[1])?;
                self.push(Slot::mov_imm(R4, 0));
                self.push(Slot::call(2));
            }
            Opcode::NullCheck => {
                self.load(R0, operands[0])?;
                if self.conditions.contains(result) {
                    self.push(Slot::jeq_0(R0, 2));
                    self.push(Slot::mov_imm(R0, 1));
                    self.push(Slot::ja(1));
                    self.push(Slot::mov_imm(R0, 0));
                } else {
                    self.push(Slot::jeq_0(R0, 1));
                    self.push(Slot::ja(2));
                    self.push(Slot::mov_imm(R0, 0));
                    self.push(Slot::exit());
                    self.push(Slot::mov_imm(R0, 1));
                }
            }
            Opcode::RingBufReserve { map, size } => {
                self.map(map);
                self.push(Slot::mov_imm(R2, in_i32(i64::from(size))?));
                self.push(Slot::mov_imm(R3, 0));
                self.push(Slot::call(131));
            }
            Opcode::RingBufSubmit { .. } => {
                self.load(R1, operands[0])?;
                self.push(Slot::mov_imm(R2, 0));
                self.push(Slot::call(132));
                self.push(Slot::mov_imm(R0, 0));
            }
            Opcode::CopyCtxToMem { offset, size } => {
                self.load(R1, operands[0])?;
                self.push(Slot::mov_imm(R2, in_i32(i64::from(size))?));
                self.push(Slot::mov_reg(R3, R6));
                self.push(Slot::add_imm(R3, offset));
                self.push(Slot::call(113));
            }
        }
        self.keep(*result)
    }

    /// The terminator's slots; hands back its jumps in patch order, each slot with its target.
    fn terminator(&mut self, terminator: &Terminator) -> Result<Vec<(usize, u32)>, Fault> {
        match *terminator {
            Terminator::Return(operand) => {
                self.load(R0, operand)?;
                self.push(Slot::exit());
                Ok(vec![])
            }
            Terminator::Jump(target) => Ok(vec![(self.push(Slot::ja(0)), target)]),
            Terminator::Branch { condition, on_true, on_false } => {
                self.load(R0, condition)?;
                let jne = self.push(Slot::jne_0(R0));
                let ja = self.push(Slot::ja(0));
                Ok(vec![(ja, on_false), (jne, on_true)])
            }
        }
    }

    /// Hands back the slot's number.
    fn push(&mut self, slot: Slot) -> usize {
        self.slots.push(slot);
        self.slots.len() - 1
    }

    /// "Sorted ascending, the i-th (from 0) has cell −8(i+1)."
    fn cell(&self, variable: u32) -> Result<i16, Fault> {
        let fault = Fault { number: 20, value: i64::from(variable) };
        let i = self.variables.binary_search(&variable).map_err(|_| fault)?;
        Ok(-8 * (i as i16 + 1))
    }

    /// "With n variables, scratch j has cell −8(n+j+1), j from 0 to 7; the ring goes on through
    /// the unit and returns to 0 after 7."
    fn next_scratch(&mut self) -> i16 {
        let j = self.scratch_taken % SCRATCH_CELLS;
        self.scratch_taken += 1;
        -8 * ((self.variables.len() + j) as i16 + 1)
    }

    fn load(&mut self, register: u8, operand: Operand) -> Result<(), Fault> {
        let slot = match operand {
            Operand::Variable(variable) => {
                Slot::ldx(8, register, R10, self.cell(variable)?).expect("8 is a size")
            }
            Operand::Immediate(value) => Slot::mov_imm(register, in_i32(value)?),
        };
        self.push(slot);
        Ok(())
    }

    fn addr(&mut self, register: u8, operand: Operand) -> Result<(), Fault> {
        let cell = match operand {
            Operand::Variable(variable) => self.cell(variable)?,
            Operand::Immediate(value) => {
                self.push(Slot::mov_imm(register, in_i32(value)?));
                let scratch = self.next_scratch();
                self.push(Slot::stx(8, R10, register, scratch).expect("8 is a size"));
                scratch
            }
        };
        self.push(Slot::mov_reg(register, R10));
        self.push(Slot::add_imm(register, i32::from(cell)));
        Ok(())
    }

    fn keep(&mut self, result: u32) -> Result<(), Fault> {
        let cell = self.cell(result)?;
        self.push(Slot::stx(8, R10, R0, cell).expect("8 is a size"));
        Ok(())
    }

    fn map(&mut self, map: u32) {
        let offset = self.slots.len() as u32 * 8;
        self.push(Slot::new(0x18, R1, 1, 0, 0));
        self.push(Slot::new(0, 0, 0, 0, 0));
        self.relocs.push((offset, map));
    }
}

/// Refusals 16 and 17 before 11, since 16 is refused for any count; then 11.
fn check_count(opcode: &Opcode, count: usize) -> Result<(), Fault> {
    let needed = match *opcode {
        Opcode::LoadCtx { .. } | Opcode::LoadPacket { .. } => Count::Any,
        Opcode::RingBufReserve { .. } => Count::Any,
        Opcode::LoadKey | Opcode::NullCheck | Opcode::CallMap { .. } => Count::First,
        Opcode::RingBufSubmit { .. } | Opcode::CopyCtxToMem { .. } => Count::First,
        Opcode::Binary { .. } | Opcode::Store { .. } => Count::Exactly(2),
        Opcode::UpdateMap { .. } => Count::Exactly(2),
        Opcode::HelperCall { id } => match id {
            5 | 14 | 15 | 35 => Count::Exactly(0),
            114 | 115 => Count::Exactly(3),
            16 => return Err(Fault { number: 16, value: 16 }),
            _ => return Err(Fault { number: 17, value: i64::from(id) }),
        },
    };
    let right = match needed {
        Count::Any => true,
        Count::First => count >= 1,
        Count::Exactly(exactly) => count == exactly,
    };
    right.then_some(()).ok_or(Fault { number: 11, value: count as i64 })
}

fn in_i32(value: i64) -> Result<i32, Fault> {
    i32::try_from(value).map_err(|_| Fault { number: 12, value })
}
