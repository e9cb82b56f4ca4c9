//! The library under test: the one place that knows its C interface.

use crate::backend::BackEnd;

extern "C" {
    /// `answer` holds three numbers: the refusal's number or 0, then (place, value) or (slots,
    /// relocations).
    fn shurtenbo_compile(
        unit: *const u8,
        unit_len: usize,
        code: *mut u8,
        code_len: usize,
        relocs: *mut u32,
        relocs_len: usize,
        answer: *mut [u64; 3],
    );

    /// `answer` holds the refusal's number, place and value, or 0 first for yes.
    fn shurtenbo_screen(
        code: *const u8,
        code_len: usize,
        relocs: *const u32,
        relocs_len: usize,
        table: *mut u16,
        table_len: usize,
        answer: *mut [u64; 3],
    );
}

pub struct Shurtenbo;

impl BackEnd for Shurtenbo {
    fn name(&self) -> &'static str {
        "shurtenbo"
    }

    fn compile(&self, unit: &[u8], code: &mut [u8], relocs: &mut [u32]) -> [i64; 3] {
        // A number that no answer holds, so that one left unwritten shows.
        let mut answer = [u64::MAX - 1; 3];
        // SAFETY: each pointer comes with the length of the slice it was taken from; the library
        // keeps none of them.
        unsafe {
            shurtenbo_compile(
                unit.as_ptr(),
                unit.len(),
                code.as_mut_ptr(),
                code.len(),
                relocs.as_mut_ptr(),
                relocs.len(),
                &mut answer,
            );
        }
        answer.map(|n| n as i64)
    }
}

/// The screen's three numbers.
pub fn screen(code: &[u8], relocs: &[u32], table: &mut [u16]) -> [i64; 3] {
    let mut answer = [u64::MAX - 1; 3];
    // SAFETY: as in `compile`.
    unsafe {
        shurtenbo_screen(
            code.as_ptr(),
            code.len(),
            relocs.as_ptr(),
            relocs.len(),
            table.as_mut_ptr(),
            table.len(),
            &mut answer,
        );
    }
    answer.map(|n| n as i64)
}
