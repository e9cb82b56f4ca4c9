//! Probes as one would write them: count an event by process, then tell of it in a ring buffer.

use oracle::generate::build::{block, branch, immediate, instruction, jump, returns, variable};
use oracle::unit::{BinaryOp, Block, Instruction, Opcode, Operand, Unit};

const COUNTS: u32 = 0;
const EVENTS: u32 = 1;

// Variables, used again in each stage.
const PROCESS: u32 = 0;
const FOUND: u32 = 1;
const IS_FOUND: u32 = 2;
const COUNT: u32 = 3;
const EVENT: u32 = 4;
const IS_EVENT: u32 = 5;
const PLACE: u32 = 6;
const TIME: u32 = 7;
const STATUS: u32 = 8;
/// The fields of the context, from here on.
const FIELD: u32 = 9;
/// The sum of the fields.
const SUM: u32 = 20;

/// Five blocks and 49 instructions for each stage, and the block that returns; with no stage two
/// blocks and 20 instructions.
pub fn probe(stages: usize) -> Unit {
    let mut blocks = if stages == 0 { filter() } else { vec![] };
    (0..stages as u32).for_each(|stage| blocks.extend(self::stage(5 * stage)));
    let last = blocks.len() as u32;
    blocks.push(block(last, vec![], returns(0)));
    Unit { maps: vec![b"counts".to_vec(), b"events".to_vec()], blocks }
}

fn filter() -> Vec<Block> {
    let mut instructions = fields(9);
    instructions.push(binary(BinaryOp::Sub, SUM, variable(SUM), immediate(1_000)));
    instructions.push(instruction(IS_FOUND, Opcode::NullCheck, &[variable(SUM)]));
    vec![block(0, instructions, branch(variable(IS_FOUND), 1, 1))]
}

/// Blocks with five ids from `first` on; the next stage, or the return, has the id after them.
fn stage(first: u32) -> [Block; 5] {
    let [look, hit, miss, tell, fill, next] = [0, 1, 2, 3, 4, 5].map(|k| first + k);

    let mut looking = fields(6);
    looking.extend([
        instruction(PROCESS, Opcode::HelperCall { id: 14 }, &[]),
        binary(BinaryOp::Shr, PROCESS, variable(PROCESS), immediate(32)),
        binary(BinaryOp::Add, PROCESS, variable(PROCESS), variable(SUM)),
        instruction(FOUND, Opcode::CallMap { map: COUNTS }, &[variable(PROCESS)]),
        instruction(IS_FOUND, Opcode::NullCheck, &[variable(FOUND)]),
    ]);

    let mut hitting = fields(3);
    hitting.extend([
        instruction(COUNT, Opcode::LoadKey, &[variable(FOUND)]),
        binary(BinaryOp::Add, COUNT, variable(COUNT), immediate(1)),
        instruction(STATUS, Opcode::Store { size: 8 }, &[variable(FOUND), variable(COUNT)]),
    ]);

    let missing = vec![
        binary(BinaryOp::Mul, COUNT, variable(SUM), immediate(2)),
        instruction(STATUS, Opcode::UpdateMap { map: COUNTS }, &[variable(PROCESS), immediate(1)]),
    ];

    let mut telling = fields(1);
    telling.extend([
        instruction(EVENT, Opcode::RingBufReserve { map: EVENTS, size: 64 }, &[]),
        instruction(IS_EVENT, Opcode::NullCheck, &[variable(EVENT)]),
    ]);

    let mut filling = vec![instruction(TIME, Opcode::HelperCall { id: 5 }, &[])];
    for (offset, what) in
        [(0, TIME), (8, PROCESS), (16, COUNT), (24, SUM), (32, FIELD), (40, FIELD)]
    {
        filling.extend([
            binary(BinaryOp::Add, PLACE, variable(EVENT), immediate(offset)),
            instruction(STATUS, Opcode::Store { size: 8 }, &[variable(PLACE), variable(what)]),
        ]);
    }
    let source = [variable(PLACE), immediate(16), variable(FIELD)];
    filling.extend([
        binary(BinaryOp::Add, PLACE, variable(EVENT), immediate(48)),
        instruction(STATUS, Opcode::HelperCall { id: 114 }, &source),
        instruction(STATUS, Opcode::CopyCtxToMem { offset: 16, size: 16 }, &[variable(PLACE)]),
        instruction(STATUS, Opcode::RingBufSubmit { map: EVENTS }, &[variable(EVENT)]),
    ]);

    [
        block(look, looking, branch(variable(IS_FOUND), hit, miss)),
        block(hit, hitting, jump(tell)),
        block(miss, missing, jump(tell)),
        block(tell, telling, branch(variable(IS_EVENT), fill, next)),
        block(fill, filling, jump(next)),
    ]
}

/// Fields of the context, each added to the sum.
fn fields(count: u32) -> Vec<Instruction> {
    let field = |k: u32| {
        let opcode = Opcode::LoadCtx { offset: 8 * k as i32, size: 8 };
        let sum = binary(BinaryOp::Add, SUM, variable(SUM), variable(FIELD + k));
        [instruction(FIELD + k, opcode, &[]), sum]
    };
    (0..count).flat_map(field).collect()
}

fn binary(op: BinaryOp, result: u32, first: Operand, second: Operand) -> Instruction {
    instruction(result, Opcode::Binary { op }, &[first, second])
}
