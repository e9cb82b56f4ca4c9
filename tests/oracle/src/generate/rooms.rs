//! Buffers of exactly the length needed, a little less, a little more, and none.

use super::build::{bare, block, immediate, instruction, jump, returns, unit, variable};
use super::points::p2;
use super::{Case, Length};
use crate::unit::{Opcode, Unit};
use crate::unitwriter::write;

const LENGTHS: [Length; 10] = [
    Length::Zero,
    Length::Less(9),
    Length::Less(8),
    Length::Less(2),
    Length::Less(1),
    Length::Exact,
    Length::More(1),
    Length::More(2),
    Length::More(8),
    Length::More(9),
];

pub fn all() -> impl Iterator<Item = Case> {
    units().into_iter().flat_map(|unit| {
        let file = write(&unit);
        LENGTHS.into_iter().flat_map(move |code| {
            let file = file.clone();
            LENGTHS.into_iter().map(move |relocs| Case { file: file.clone(), code, relocs })
        })
    })
}

fn units() -> Vec<Unit> {
    let maps = vec![
        instruction(1, Opcode::RingBufReserve { map: 2, size: 8 }, &[]),
        instruction(2, Opcode::CallMap { map: 0 }, &[variable(1)]),
        instruction(3, Opcode::UpdateMap { map: 1 }, &[variable(1), immediate(3)]),
        instruction(3, Opcode::RingBufSubmit { map: 2 }, &[variable(1)]),
    ];
    vec![
        unit(0, vec![]),
        unit(0, vec![bare(1, returns(0))]),
        p2(),
        unit(3, vec![block(1, maps, returns(0))]),
        // Refused before any room is judged.
        unit(0, vec![bare(1, jump(2))]),
    ]
}
