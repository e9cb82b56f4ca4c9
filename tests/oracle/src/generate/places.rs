//! Ids whose last bits are the same: up to 40 bare blocks with ids a power of two apart, some of
//! them twice, that go to each other and, in every other unit, past them.

use super::build::{bare, branch, immediate, jump, returns, unit};
use super::random::Random;
use crate::unit::{Block, Unit};

const STEPS: [u32; 4] = [1 << 4, 1 << 8, 1 << 12, 1 << 20];
const MOST_BLOCKS: usize = 40;

pub fn any(random: &mut Random) -> Unit {
    let step = random.pick(&STEPS);
    let count = 1 + random.below(MOST_BLOCKS);
    let id = |random: &mut Random| step * random.below(count) as u32 + random.below(2) as u32;
    let ids: Vec<u32> = (0..count).map(|_| id(random)).collect();
    let past = random.one_in(2);
    let target = |random: &mut Random| {
        if past && random.one_in(count) {
            id(random)
        } else {
            random.pick(&ids)
        }
    };
    // The immediate tells in the code which block a slot is from.
    let mut block = |(position, &id): (usize, &u32)| -> Block {
        let terminator = match random.below(4) {
            0 => returns(position as i64),
            1 => jump(target(random)),
            _ => branch(immediate(position as i64), target(random), target(random)),
        };
        bare(id, terminator)
    };
    unit(0, ids.iter().enumerate().map(&mut block).collect())
}
