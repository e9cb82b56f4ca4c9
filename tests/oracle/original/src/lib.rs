//! The published back end, compiled from the folder SOLNIX_SRC, unchanged.
//!
//! `tracepoint.rs`, `insn.rs` and `instruction.rs` are included where they lie. They name
//! `crate::ast`, `crate::ir` and `super::elf`, so this crate has modules of these names; all that
//! is written here is the little of them that the three files lean on.

pub mod ast;
pub mod emit;
pub mod ir;
