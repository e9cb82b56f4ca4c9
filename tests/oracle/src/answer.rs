//! What a back end hands back: code with relocations, or a refusal in 01's numbers.

use std::fmt::Write;

/// Answers longer than this are listed by a digest of their code.
const LISTED_SLOTS: usize = 400;

#[derive(Debug, Clone, Copy, PartialEq, Eq)]
pub struct Refusal {
    pub number: u32,
    pub place: u32,
    pub value: i64,
}

#[derive(Debug, Clone, PartialEq, Eq)]
pub struct Lowered {
    pub code: Vec<u8>,
    /// Byte offset and map number, in code order.
    pub relocs: Vec<(u32, u32)>,
}

pub type Answer = Result<Lowered, Refusal>;

/// Code room in bytes, relocation room in u32s.
#[derive(Debug, Clone, Copy, PartialEq, Eq)]
pub struct Rooms {
    pub code: usize,
    pub relocs: usize,
}

impl Lowered {
    pub fn slots(&self) -> usize {
        self.code.len() / 8
    }

    /// The room that holds this exactly.
    pub fn needed(&self) -> Rooms {
        Rooms { code: self.code.len(), relocs: 2 * self.relocs.len() }
    }

    /// Refusals 21 and 22: the code buffer is judged first.
    pub fn within(self, rooms: Rooms) -> Answer {
        let needed = self.needed();
        let short = |number, value: usize| Err(Refusal { number, place: 0, value: value as i64 });
        if rooms.code < needed.code {
            short(21, needed.code)
        } else if rooms.relocs < needed.relocs {
            short(22, needed.relocs)
        } else {
            Ok(self)
        }
    }
}

/// The answer's lines in a replay list; README.md gives their form.
pub fn listing(answer: &Answer) -> String {
    match answer {
        Err(Refusal { number, place, value }) => {
            format!("refused {number} at {place} value {value}\n")
        }
        Ok(lowered) => {
            let mut text = format!("slots {} relocs {}\n", lowered.slots(), lowered.relocs.len());
            if lowered.slots() > LISTED_SLOTS {
                let _ = writeln!(text, "fnv1a {:016x}", fnv1a(&lowered.code));
            } else {
                text += &hex(&lowered.code);
                text.push('\n');
            }
            let pairs: Vec<String> =
                lowered.relocs.iter().map(|(offset, map)| format!("{offset}:{map}")).collect();
            text += &pairs.join(" ");
            text.push('\n');
            text
        }
    }
}

pub fn hex(bytes: &[u8]) -> String {
    bytes.iter().fold(String::new(), |mut text, byte| {
        let _ = write!(text, "{byte:02x}");
        text
    })
}

/// 64-bit FNV-1a.
pub fn fnv1a(bytes: &[u8]) -> u64 {
    bytes.iter().fold(0xcbf2_9ce4_8422_2325, |hash, &byte| {
        (hash ^ u64::from(byte)).wrapping_mul(0x0000_0100_0000_01b3)
    })
}
