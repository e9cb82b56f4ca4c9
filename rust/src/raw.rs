//! The C interface, as include/shurtenbo.h has it.

pub const NO_SUCH_MAP: u64 = 1000;
pub const NOT_EIGHT: u64 = 1001;

pub type Answer = [u64; 3];

extern "C" {
    pub fn shurtenbo_compile(
        unit: *const u8,
        unit_len: usize,
        code: *mut u8,
        code_len: usize,
        relocs: *mut u32,
        relocs_len: usize,
        answer: *mut Answer,
    );

    pub fn shurtenbo_screen(
        code: *const u8,
        code_len: usize,
        relocs: *const u32,
        relocs_len: usize,
        table: *mut u16,
        table_len: usize,
        answer: *mut Answer,
    );

    pub fn shurtenbo_read_unit(unit: *const u8, unit_len: usize, answer: *mut Answer);

    pub fn shurtenbo_map_name(unit: *const u8, unit_len: usize, map: u32, answer: *mut Answer);

    pub fn shurtenbo_read_record(
        unit: *const u8,
        unit_len: usize,
        at: usize,
        due: u8,
        maps: u16,
        fields: *mut [u64; 24],
        answer: *mut Answer,
    );

    pub fn shurtenbo_write_record(
        fields: *const [u64; 24],
        names: *const u8,
        names_len: usize,
        maps: u16,
        buffer: *mut u8,
        buffer_len: usize,
        answer: *mut Answer,
    );

    pub fn shurtenbo_decode(
        bytes: *const u8,
        bytes_len: usize,
        fields: *mut [i64; 5],
        answer: *mut Answer,
    );

    pub fn shurtenbo_encode(
        code: u8,
        dst: u8,
        src: u8,
        off: i16,
        imm: i32,
        bytes: *mut u8,
        bytes_len: usize,
        answer: *mut Answer,
    );
}
