//! A back end under comparison: it takes a unit file and two lent buffers, and answers by three
//! numbers. What it does to the buffers is judged too.

use crate::answer::{Answer, Refusal, Rooms};
use crate::from_paper;

pub trait BackEnd {
    fn name(&self) -> &'static str;

    /// Refusal number or 0, then place and value or slot and relocation counts.
    fn compile(&self, unit: &[u8], code: &mut [u8], relocs: &mut [u32]) -> [i64; 3];
}

/// 01's lowering a second time: it stands in where the library is not linked.
pub struct FromPaper;

impl BackEnd for FromPaper {
    fn name(&self) -> &'static str {
        "from_paper"
    }

    fn compile(&self, unit: &[u8], code: &mut [u8], relocs: &mut [u32]) -> [i64; 3] {
        let rooms = Rooms { code: code.len(), relocs: relocs.len() };
        let answer = from_paper::lowering(unit).and_then(|lowered| lowered.within(rooms));
        let after = Buffers::after(&answer, code.to_vec(), relocs.to_vec());
        code.copy_from_slice(&after.code);
        relocs.copy_from_slice(&after.relocs);
        numbers(&answer)
    }
}

/// An answer as the three numbers.
fn numbers(answer: &Answer) -> [i64; 3] {
    match answer {
        Ok(lowered) => [0, lowered.slots() as i64, lowered.relocs.len() as i64],
        Err(Refusal { number, place, value }) => [i64::from(*number), i64::from(*place), *value],
    }
}

#[derive(PartialEq, Eq)]
struct Buffers {
    code: Vec<u8>,
    relocs: Vec<u32>,
}

impl Buffers {
    /// What 01 makes of the buffers: the front of each changed on success, else nothing.
    fn after(answer: &Answer, mut code: Vec<u8>, mut relocs: Vec<u32>) -> Buffers {
        if let Ok(lowered) = answer {
            code[..lowered.code.len()].copy_from_slice(&lowered.code);
            let pairs = lowered.relocs.iter().flat_map(|(offset, map)| [*offset, *map]);
            relocs.iter_mut().zip(pairs).for_each(|(cell, number)| *cell = number);
        }
        Buffers { code, relocs }
    }
}

/// Cells on both sides of each lent buffer that no back end may touch.
const FENCE: usize = 16;

/// A pattern without zeros and with no run of equal bytes, so that an untouched cell shows.
fn filled<T>(length: usize, cell: impl Fn(usize) -> T) -> Vec<T> {
    (0..length + 2 * FENCE).map(cell).collect()
}

/// Runs the back end in fenced, filled buffers and compares numbers and all cells with the
/// expected answer. The error says what differs.
pub fn compare(
    backend: &dyn BackEnd,
    unit: &[u8],
    rooms: Rooms,
    expected: &Answer,
) -> Result<(), String> {
    let code = filled(rooms.code, |i| (i % 251) as u8 + 1);
    let relocs = filled(rooms.relocs, |i| 0xa5a5_0001_u32.wrapping_add(i as u32));

    let mut found = Buffers { code: code.clone(), relocs: relocs.clone() };
    let lent_code = FENCE..FENCE + rooms.code;
    let lent_relocs = FENCE..FENCE + rooms.relocs;
    let answered = backend.compile(
        unit,
        &mut found.code[lent_code.clone()],
        &mut found.relocs[lent_relocs.clone()],
    );
    if answered != numbers(expected) {
        return Err(format!("numbers {answered:?}, expected {:?}", numbers(expected)));
    }

    let lent = Buffers::after(
        expected,
        code[lent_code.clone()].to_vec(),
        relocs[lent_relocs.clone()].to_vec(),
    );
    let mut wanted = Buffers { code, relocs };
    wanted.code[lent_code].copy_from_slice(&lent.code);
    wanted.relocs[lent_relocs].copy_from_slice(&lent.relocs);
    first_difference("code", &found.code, &wanted.code)?;
    first_difference("relocation", &found.relocs, &wanted.relocs)
}

fn first_difference<T: PartialEq + std::fmt::Debug>(
    buffer: &str,
    found: &[T],
    wanted: &[T],
) -> Result<(), String> {
    match found.iter().zip(wanted).position(|(one, other)| one != other) {
        None => Ok(()),
        Some(at) => Err(format!(
            "{buffer} buffer, cell {}: {:?}, expected {:?}",
            at as i64 - FENCE as i64,
            found[at],
            wanted[at]
        )),
    }
}
