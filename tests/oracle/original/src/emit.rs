//! The back end: `insn.rs` and `tracepoint.rs` whole.

pub mod ebpf {
    pub mod insn {
        include!(env!("SOLNIX_INSN"));
    }

    pub mod tracepoint {
        include!(env!("SOLNIX_TRACEPOINT"));
    }

    /// Shim: of the ELF writer only the relocation that the back end fills in.
    pub mod elf {
        #[derive(Debug)]
        pub struct ProgramReloc {
            pub offset: u64,
            pub symbol: String,
        }
    }
}
