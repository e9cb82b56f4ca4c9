//! Ids that clash in every way: all units of one, two or three bare blocks with ids 1 to 3 and
//! every terminator over the targets 1 to 4.

use super::build::{bare, branch, immediate, jump, returns, unit};
use crate::unit::{Block, Unit};

const IDS: usize = 3;
const TARGETS: usize = 4;
/// A return, a jump to each target, a branch to each pair of them.
const TERMINATORS: usize = 1 + TARGETS + TARGETS * TARGETS;
const BLOCKS: usize = IDS * TERMINATORS;

pub const OF_ONE_BLOCK: usize = BLOCKS;
pub const OF_TWO_BLOCKS: usize = BLOCKS * BLOCKS;
pub const COUNT: usize = OF_ONE_BLOCK + OF_TWO_BLOCKS + BLOCKS * BLOCKS * BLOCKS;

/// The units of one block, then those of two, then those of three.
pub fn nth(number: usize) -> Unit {
    let (block_count, mut rest) = if number < OF_ONE_BLOCK {
        (1, number)
    } else if number < OF_ONE_BLOCK + OF_TWO_BLOCKS {
        (2, number - OF_ONE_BLOCK)
    } else {
        (3, number - OF_ONE_BLOCK - OF_TWO_BLOCKS)
    };
    let mut blocks = Vec::new();
    for position in 0..block_count {
        blocks.push(nth_block(rest % BLOCKS, position));
        rest /= BLOCKS;
    }
    unit(0, blocks)
}

/// The immediate tells in the code which block a slot is from.
fn nth_block(number: usize, position: i64) -> Block {
    let id = (number % IDS) as u32 + 1;
    let target = |n: usize| (n % TARGETS) as u32 + 1;
    let terminator = match number / IDS {
        0 => returns(position),
        n if n <= TARGETS => jump(target(n - 1)),
        n => {
            let pair = n - 1 - TARGETS;
            branch(immediate(position), target(pair), target(pair / TARGETS))
        }
    };
    bare(id, terminator)
}
