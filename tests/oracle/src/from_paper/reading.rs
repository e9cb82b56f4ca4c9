//! 01's reading refusals a second time: it judges bytes where they lie and makes no unit of them.

use crate::answer::Refusal;
use std::collections::BTreeSet;

/// What must come next.
enum Due {
    Head,
    Map,
    Block,
    InstructionOrTerminator,
    Nothing,
}

/// The places of instructions and terminators, block by block; or refusal 1 to 5.
pub fn judge(file: &[u8]) -> Result<Vec<Vec<u32>>, Refusal> {
    if file.len() > 262_144 {
        return Err(Refusal { number: 1, place: 0, value: 0 });
    }
    let mut at = 0;
    let mut due = Due::Head;
    let (mut maps, mut blocks) = (0, 0);
    let mut names: BTreeSet<&[u8]> = BTreeSet::new();
    let mut places: Vec<Vec<u32>> = vec![];
    loop {
        let refused = |number| Err(Refusal { number, place: at as u32, value: 0 });
        let rest = &file[at..];
        if let Due::Nothing = due {
            return if rest.is_empty() { Ok(places) } else { refused(4) };
        }
        if rest.len() < 4 || rest.len() - 4 < number(&rest[..2]) as usize {
            return refused(2);
        }
        let end = 4 + number(&rest[..2]) as usize;
        let kind = number(&rest[2..4]);
        let payload = &rest[4..end];

        let block_ended = match due {
            Due::Head => {
                if kind != 1 || !is_head(payload) {
                    return refused(3);
                }
                maps = number(&payload[2..4]);
                blocks = number(&payload[4..8]) as usize;
                true
            }
            Due::Map => {
                if kind != 2 {
                    return refused(4);
                }
                if payload.len() > 64 || !names.insert(payload) {
                    return refused(5);
                }
                true
            }
            Due::Block => {
                if kind != 3 {
                    return refused(4);
                }
                if payload.len() != 4 {
                    return refused(5);
                }
                places.push(vec![]);
                false
            }
            _ => {
                if kind != 4 && kind != 5 {
                    return refused(4);
                }
                if kind == 4 && !is_instruction(payload, maps)
                    || kind == 5 && !is_terminator(payload)
                {
                    return refused(5);
                }
                places.last_mut().expect("a block has begun").push(at as u32);
                kind == 5
            }
        };
        due = match block_ended {
            false => Due::InstructionOrTerminator,
            true if (names.len() as u64) < maps => Due::Map,
            true if places.len() < blocks => Due::Block,
            true => Due::Nothing,
        };
        at += end;
    }
}

/// Little-endian, up to eight bytes.
fn number(bytes: &[u8]) -> u64 {
    bytes.iter().rev().fold(0, |number, byte| number << 8 | u64::from(*byte))
}

fn is_head(payload: &[u8]) -> bool {
    payload.len() == 8
        && number(&payload[..2]) == 1
        && number(&payload[2..4]) <= 64
        && number(&payload[4..]) <= 1_024
}

fn is_operand(bytes: &[u8]) -> bool {
    bytes[0] == 1 || bytes[0] == 0 && number(&bytes[5..9]) == 0
}

fn is_terminator(payload: &[u8]) -> bool {
    match (payload.first(), payload.len()) {
        (Some(0), 10) | (Some(2), 18) => is_operand(&payload[1..10]),
        (Some(1), 5) => true,
        _ => false,
    }
}

/// What an opcode may have in small, offset or number.
#[derive(Clone, Copy, PartialEq)]
enum Use {
    Zero,
    UpTo6,
    Map,
    Any,
}

/// Small, offset, number of the opcodes 1 to 12.
const USES: [[Use; 3]; 12] = {
    use Use::{Any, Map, UpTo6, Zero};
    [
        [Zero, Zero, Any],
        [Zero, Zero, Zero],
        [Any, Zero, Zero],
        [Any, Any, Zero],
        [Any, Any, Zero],
        [Zero, Any, Any],
        [Zero, Zero, Zero],
        [UpTo6, Zero, Zero],
        [Zero, Zero, Map],
        [Zero, Zero, Map],
        [Zero, Map, Any],
        [Zero, Zero, Map],
    ]
};

/// A negative map number is, read without a sign, far above every map count.
fn is_instruction(payload: &[u8], maps: u64) -> bool {
    if payload.len() < 16 {
        return false;
    }
    let (opcode, operands) = (payload[4], payload[6]);
    let fields = [&payload[5..6], &payload[8..12], &payload[12..16]].map(number);
    let allowed = |(used, field): (Use, u64)| match used {
        Use::Zero => field == 0,
        Use::UpTo6 => field <= 6,
        Use::Map => field < maps,
        Use::Any => true,
    };
    (1..=12).contains(&opcode)
        && operands <= 8
        && payload[7] == 0
        && payload.len() == 16 + 9 * usize::from(operands)
        && USES[usize::from(opcode) - 1].into_iter().zip(fields).all(allowed)
        && payload[16..].chunks(9).all(is_operand)
}
