//! 01's known points that a back end can answer: P1 to P10 and both 'run only' points.

use super::build::{bare, block, branch, immediate, instruction, jump, returns, unit, variable};
use super::distances;
use super::Case;
use crate::unit::{Opcode, Terminator, Unit};

pub struct Point {
    pub name: &'static str,
    pub case: Case,
}

fn point(name: &'static str, unit: &Unit) -> Point {
    Point { name, case: Case::of(unit) }
}

pub fn all() -> Vec<Point> {
    let mut points = small();
    points.extend(large());
    points
}

pub fn small() -> Vec<Point> {
    vec![
        point("P1", &unit(0, vec![bare(1, returns(0))])),
        point("P2", &p2()),
        point("P3", &unit(0, vec![])),
        point("P4", &unit(0, vec![bare(1, jump(1))])),
        point("P5", &unit(0, vec![bare(1, jump(2)), bare(2, returns(1)), bare(2, returns(2))])),
        point("P6", &unit(0, vec![bare(1, jump(2)), bare(1, returns(0)), bare(2, returns(0))])),
        point("P7, 56 variables", &variables_and_last_scratch(56)),
        point("P7, 57 variables", &variables_and_last_scratch(57)),
        point("P8, largest", &unit(0, vec![bare(1, returns(2_147_483_647))])),
        point("P8, smallest", &unit(0, vec![bare(1, returns(-2_147_483_648))])),
        point("P8, too large", &unit(0, vec![bare(1, returns(2_147_483_648))])),
        point("P9, passes", &load(32_767, 8)),
        point("P9, offset", &load(32_768, 8)),
        point("P9, size before offset", &load(40_000, 3)),
        point("P10", &unit(0, vec![bare(1, branch(immediate(1), 7, 8))])),
        point("run only, bad immediate in an unreached block", &bad_but_unreached()),
    ]
}

pub fn large() -> Vec<Point> {
    vec![
        point("run only, distance 32,767", &distances::forward(32_767)),
        point("run only, distance 32,768", &distances::forward(32_768)),
        point("distance −32,768", &distances::backward(-32_768)),
        point("distance −32,769", &distances::backward(-32_769)),
    ]
}

pub fn p2() -> Unit {
    let lookup = instruction(4, Opcode::CallMap { map: 0 }, &[immediate(5)]);
    let only = block(1, vec![lookup], Terminator::Return(variable(4)));
    Unit { maps: vec![b"seen".to_vec()], blocks: vec![only] }
}

/// Eight lookups with an immediate key take every scratch cell, the last being the eighth.
fn variables_and_last_scratch(count: u32) -> Unit {
    let mut instructions: Vec<_> =
        (0..count).map(|v| instruction(v, Opcode::HelperCall { id: 5 }, &[])).collect();
    instructions
        .extend((0..8).map(|k| instruction(0, Opcode::CallMap { map: 0 }, &[immediate(k)])));
    unit(1, vec![block(1, instructions, returns(0))])
}

fn load(offset: i32, size: u8) -> Unit {
    let load = instruction(1, Opcode::LoadCtx { offset, size }, &[]);
    unit(0, vec![block(1, vec![load], returns(0))])
}

fn bad_but_unreached() -> Unit {
    unit(0, vec![bare(1, returns(0)), bare(2, returns(2_147_483_648))])
}
