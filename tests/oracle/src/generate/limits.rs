//! Numbers at and around the limits of the fields.

const I32_MIN: i64 = i32::MIN as i64;
const I32_MAX: i64 = i32::MAX as i64;

pub const IMMEDIATES: [i64; 15] = [
    0,
    1,
    -1,
    32_768,
    I32_MAX - 1,
    I32_MAX,
    I32_MAX + 1,
    I32_MIN + 1,
    I32_MIN,
    I32_MIN - 1,
    u32::MAX as i64,
    u32::MAX as i64 + 1,
    i64::MAX,
    i64::MIN,
    i64::MIN + 1,
];

pub const OFFSETS: [i32; 15] = [
    0,
    1,
    -1,
    32_766,
    32_767,
    32_768,
    32_769,
    40_000,
    -32_767,
    -32_768,
    -32_769,
    65_536,
    i32::MAX,
    i32::MIN,
    i32::MIN + 1,
];

pub const SIZES: [u8; 15] = [0, 1, 2, 3, 4, 5, 6, 7, 8, 9, 16, 32, 127, 128, 255];

pub const NUMBERS: [u32; 9] =
    [0, 1, 64, 65_535, 65_536, i32::MAX as u32, i32::MAX as u32 + 1, u32::MAX - 1, u32::MAX];

/// Every small id, then some that only a u32 holds.
pub fn helpers() -> impl Iterator<Item = u32> {
    (0..=140).chain([256 + 5, 65_536 + 14]).chain(NUMBERS)
}
