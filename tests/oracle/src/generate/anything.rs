//! Random cases: mostly small units that are nearly right, so that every refusal and every way
//! through the lowering comes up often.

use super::build::{instruction, unit};
use super::distances::body;
use super::limits::{IMMEDIATES, NUMBERS, OFFSETS, SIZES};
use super::random::Random;
use super::{damage, Case, Length};
use crate::unit::{BinaryOp, Block, Instruction, Opcode, Operand, Terminator, Unit};
use crate::unitwriter::write;

pub fn case(random: &mut Random) -> Case {
    let mut unit = match random.below(2_000) {
        0 => far_apart(random),
        1..=20 => of_size(random, 40, 30),
        21..=200 => of_size(random, 12, 3),
        _ => of_size(random, 4, 5),
    };
    if random.one_in(2) {
        land(&mut unit, random);
    }
    let mut file = write(&unit);
    if random.one_in(10) {
        damage::at_random(&mut file, random);
    }
    Case { file, code: length(random), relocs: length(random) }
}

fn length(random: &mut Random) -> Length {
    match random.below(12) {
        0 => Length::Zero,
        1 => Length::Less(1 + random.below(20)),
        2 => Length::Exact,
        _ => Length::More(random.below(40)),
    }
}

/// What a unit's numbers are drawn from.
struct Taste {
    maps: usize,
    variables: u32,
    ids: u32,
    /// One in so many numbers is at a limit, one in so many counts is wrong.
    spoiled: usize,
}

fn of_size(random: &mut Random, most_blocks: usize, most_instructions: usize) -> Unit {
    let blocks = random.below(most_blocks + 1);
    let taste = Taste {
        maps: random.pick(&[0, 1, 2, 3]),
        variables: random.pick(&[1, 2, 4, 9, 30, 58, 70, 1_000]),
        ids: random.pick(&[1, 2, 3, 4, blocks as u32 + 1, 2 * blocks as u32 + 1]),
        spoiled: random.pick(&[5, 20, 80, 1_000]),
    };
    let blocks = (0..blocks)
        .map(|_| {
            let count = random.below(most_instructions + 1);
            Block {
                id: taste.id(random),
                instructions: (0..count).map(|_| taste.instruction(random)).collect(),
                terminator: taste.terminator(random),
            }
        })
        .collect();
    unit(taste.maps, blocks)
}

/// Sends every jump to a block that is there.
fn land(unit: &mut Unit, random: &mut Random) {
    let ids: Vec<u32> = unit.blocks.iter().map(|block| block.id).collect();
    for block in &mut unit.blocks {
        block.terminator = block.terminator.with_targets(|_| random.pick(&ids));
    }
}

/// A few blocks, some of them thousands of slots long.
fn far_apart(random: &mut Random) -> Unit {
    let count = 2 + random.below(6);
    let taste = Taste { maps: 1, variables: 9, ids: count as u32, spoiled: 1_000 };
    let mut blocks: Vec<Block> = (1..=count as u32)
        .map(|id| Block { id, instructions: vec![], terminator: taste.terminator(random) })
        .collect();
    for _ in 0..random.below(3) {
        blocks[random.below(count)].id = taste.id(random);
    }
    for _ in 0..2 + random.below(2) {
        let slots = random.pick(&[10_000, 16_383, 32_730, 32_730]) + random.below(50);
        blocks[random.below(count)].instructions.extend(body(slots));
    }
    unit(taste.maps, blocks)
}

impl Taste {
    fn id(&self, random: &mut Random) -> u32 {
        random.below(self.ids as usize) as u32 + 1
    }

    fn variable(&self, random: &mut Random) -> u32 {
        if random.one_in(200) {
            return random.pick(&[u32::MAX, u32::MAX - 1, 1 << 31, 1 << 16]);
        }
        random.below(self.variables as usize) as u32
    }

    fn immediate(&self, random: &mut Random) -> i64 {
        if random.one_in(self.spoiled) {
            return random.pick(&IMMEDIATES);
        }
        random.below(2_001) as i64 - 1_000
    }

    fn operand(&self, random: &mut Random) -> Operand {
        if random.one_in(2) {
            Operand::Immediate(self.immediate(random))
        } else {
            Operand::Variable(self.variable(random))
        }
    }

    fn terminator(&self, random: &mut Random) -> Terminator {
        match random.below(3) {
            0 => Terminator::Return(self.operand(random)),
            1 => Terminator::Jump(self.id(random)),
            _ => Terminator::Branch {
                condition: self.operand(random),
                on_true: self.id(random),
                on_false: self.id(random),
            },
        }
    }

    fn instruction(&self, random: &mut Random) -> Instruction {
        let opcode = self.opcode(random);
        let count =
            if random.one_in(self.spoiled) { random.below(9) } else { self.count(&opcode, random) };
        let operands: Vec<Operand> = (0..count).map(|_| self.operand(random)).collect();
        instruction(self.variable(random), opcode, &operands)
    }

    /// A count that is taken.
    fn count(&self, opcode: &Opcode, random: &mut Random) -> usize {
        match opcode {
            Opcode::HelperCall { id: 114 | 115 } => 3,
            Opcode::HelperCall { .. } => 0,
            Opcode::Store { .. } | Opcode::Binary { .. } | Opcode::UpdateMap { .. } => 2,
            _ => random.pick(&[1, 1, 1, 1, 2, 8]),
        }
    }

    fn opcode(&self, random: &mut Random) -> Opcode {
        let mut size = random.pick(&[1, 2, 4, 8]);
        let mut offset = random.below(600) as i32 - 300;
        let mut number = random.below(512) as u32;
        let mut id = random.pick(&[5, 14, 15, 35, 114, 115]);
        if random.one_in(self.spoiled) {
            size = random.pick(&SIZES);
            offset = random.pick(&OFFSETS);
            number = random.pick(&NUMBERS);
            id = random.pick(&[0, 1, 2, 16, 113, 116, 131, 132, u32::MAX]);
        }
        let kinds = if self.maps == 0 { 8 } else { 12 };
        let map = random.below(self.maps.max(1)) as u32;
        match random.below(kinds) {
            0 => Opcode::HelperCall { id },
            1 => Opcode::LoadKey,
            2 => Opcode::Store { size },
            3 => Opcode::LoadCtx { offset, size },
            4 => Opcode::LoadPacket { offset, size },
            5 => Opcode::CopyCtxToMem { offset, size: number },
            6 => Opcode::NullCheck,
            7 => Opcode::Binary { op: random.pick(&BinaryOp::ALL) },
            8 => Opcode::CallMap { map },
            9 => Opcode::UpdateMap { map },
            10 => Opcode::RingBufReserve { map, size: number },
            _ => Opcode::RingBufSubmit { map },
        }
    }
}
