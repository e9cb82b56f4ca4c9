//! The IR: `instruction.rs` whole, and the type definitions of `unit.rs`.

pub mod instruction {
    include!(env!("SOLNIX_INSTRUCTION"));
}

pub mod unit {
    use super::{Instruction, Operand};
    use crate::ast::unit::ProgramKind;

    include!(concat!(env!("OUT_DIR"), "/unit_types.rs"));

    impl UnitIr {
        /// Shim: the published constructor needs the parser's tree, and one field is private.
        pub fn of_blocks(blocks: Vec<BasicBlock>) -> Self {
            UnitIr {
                name: String::new(),
                sections: Vec::new(),
                license: String::new(),
                blocks,
                next_var_id: 0,
                program_type: ProgramKind::Tracepoint,
                next_block_id: 0,
            }
        }

        /// Shim: the private field is read by the parser's side alone.
        pub fn next_block_id(&self) -> u32 {
            self.next_block_id
        }
    }
}

pub use instruction::{BinaryOp, Instruction, Opcode, Operand, VarId};
pub use unit::{BasicBlock, BlockId, Terminator, UnitIr};
