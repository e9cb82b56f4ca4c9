//! Shim: two types of the parser that the IR mentions and the back end never looks into.

#[derive(Debug, Clone, Copy)]
pub enum Type {
    U64,
}

pub mod unit {
    #[derive(Debug, Clone, Copy)]
    pub enum ProgramKind {
        Tracepoint,
    }
}
