//! The bytes of unit files.
#![allow(dead_code)]

fn record(kind: u16, payload: &[u8]) -> Vec<u8> {
    [&(payload.len() as u16).to_le_bytes()[..], &kind.to_le_bytes(), payload].concat()
}

pub fn head(maps: u16, blocks: u32) -> Vec<u8> {
    record(1, &[&1u16.to_le_bytes()[..], &maps.to_le_bytes(), &blocks.to_le_bytes()].concat())
}

pub fn map(name: &[u8]) -> Vec<u8> {
    record(2, name)
}

pub fn block(id: u32) -> Vec<u8> {
    record(3, &id.to_le_bytes())
}

fn operand(tag: u8, value: u64) -> Vec<u8> {
    [&[tag][..], &value.to_le_bytes()].concat()
}

/// An instruction with the result 0, of map 0 where it has one.
pub fn instruction(opcode: u8, operands: &[(u8, u64)]) -> Vec<u8> {
    let fixed = [0, 0, 0, 0, opcode, 0, operands.len() as u8, 0, 0, 0, 0, 0, 0, 0, 0, 0];
    let rest: Vec<u8> = operands.iter().flat_map(|&(tag, value)| operand(tag, value)).collect();
    record(4, &[&fixed[..], &rest].concat())
}

pub fn terminator_return(tag: u8, value: u64) -> Vec<u8> {
    record(5, &[&[0][..], &operand(tag, value)].concat())
}

pub fn return_zero() -> Vec<u8> {
    terminator_return(1, 0)
}

pub fn jump(target: u32) -> Vec<u8> {
    record(5, &[&[1][..], &target.to_le_bytes()].concat())
}

/// A unit of maps named m, and blocks.
pub fn unit(maps: u16, blocks: &[&[u8]]) -> Vec<u8> {
    let mut bytes = head(maps, blocks.len() as u32);
    for _ in 0..maps {
        bytes.extend(map(b"m"));
    }
    bytes.extend(blocks.concat());
    bytes
}

/// The scope paper's P2: map "seen", block 1, CallMap result 4, immediate key 5, return variable 4.
pub fn p2() -> Vec<u8> {
    let mut call = instruction(9, &[(1, 5)]);
    call[4] = 4;
    [head(1, 1), map(b"seen"), block(1), call, terminator_return(0, 4)].concat()
}
