//! Asking the original about a unit.

use crate::answer::Lowered;
use crate::unit::{BinaryOp, Block, Instruction, Opcode, Operand, Terminator, Unit};
use original::ast::Type;
use original::emit::ebpf::tracepoint::{compile_tracepoint, CompiledProgram};
use original::ir;

/// The original's answer, an error in its own words.
pub fn compile(unit: &Unit) -> Result<Lowered, String> {
    compile_tracepoint(&self::ir(unit)).map(lowered)
}

/// The unit in the original's own types. A map's number stands for its name.
pub fn ir(unit: &Unit) -> ir::UnitIr {
    ir::UnitIr::of_blocks(unit.blocks.iter().map(block).collect())
}

fn lowered(program: CompiledProgram) -> Lowered {
    let pair = |reloc: &original::emit::ebpf::elf::ProgramReloc| {
        let offset = u32::try_from(reloc.offset).expect("code is far shorter than 4 GiB");
        (offset, reloc.symbol.parse().expect("a map's number stands for its name"))
    };
    let relocs = program.relocs.iter().map(pair).collect();
    Lowered { code: program.code, relocs }
}

fn block(block: &Block) -> ir::BasicBlock {
    ir::BasicBlock {
        id: ir::BlockId(block.id),
        instructions: block.instructions.iter().map(instruction).collect(),
        terminator: terminator(&block.terminator),
    }
}

fn instruction(instruction: &Instruction) -> ir::Instruction {
    ir::Instruction {
        result: ir::VarId(instruction.result),
        opcode: opcode(&instruction.opcode),
        operands: instruction.operands.iter().map(operand).collect(),
        result_type: Type::U64,
    }
}

fn opcode(opcode: &Opcode) -> ir::Opcode {
    let name = |map: u32| map.to_string();
    match *opcode {
        Opcode::HelperCall { id } => ir::Opcode::HelperCall { id },
        Opcode::LoadKey => ir::Opcode::LoadKey,
        Opcode::Store { size } => ir::Opcode::Store { size },
        Opcode::LoadCtx { offset, size } => ir::Opcode::LoadCtx { offset, size },
        Opcode::LoadPacket { offset, size } => ir::Opcode::LoadPacket { offset, size },
        Opcode::CopyCtxToMem { offset, size } => ir::Opcode::CopyCtxToMem { offset, size },
        Opcode::NullCheck => ir::Opcode::NullCheck,
        Opcode::Binary { op } => ir::Opcode::Binary { op: binary_op(op) },
        Opcode::CallMap { map } => ir::Opcode::CallMap { map_name: name(map) },
        Opcode::UpdateMap { map } => ir::Opcode::UpdateMap { map_name: name(map) },
        Opcode::RingBufReserve { map, size } => {
            ir::Opcode::RingBufReserve { map_name: name(map), size }
        }
        Opcode::RingBufSubmit { map } => ir::Opcode::RingBufSubmit { map_name: name(map) },
    }
}

fn binary_op(op: BinaryOp) -> ir::BinaryOp {
    match op {
        BinaryOp::Add => ir::BinaryOp::Add,
        BinaryOp::Sub => ir::BinaryOp::Sub,
        BinaryOp::Mul => ir::BinaryOp::Mul,
        BinaryOp::Div => ir::BinaryOp::Div,
        BinaryOp::Mod => ir::BinaryOp::Mod,
        BinaryOp::Shl => ir::BinaryOp::Shl,
        BinaryOp::Shr => ir::BinaryOp::Shr,
    }
}

fn operand(operand: &Operand) -> ir::Operand {
    match *operand {
        Operand::Variable(variable) => ir::Operand::Var(ir::VarId(variable)),
        Operand::Immediate(value) => ir::Operand::Immediate(value),
    }
}

fn terminator(terminator: &Terminator) -> ir::Terminator {
    match *terminator {
        Terminator::Return(returned) => ir::Terminator::Return(operand(&returned)),
        Terminator::Jump(target) => ir::Terminator::Jump(ir::BlockId(target)),
        Terminator::Branch { condition, on_true, on_false } => ir::Terminator::Branch {
            condition: operand(&condition),
            true_block: ir::BlockId(on_true),
            false_block: ir::BlockId(on_false),
        },
    }
}
