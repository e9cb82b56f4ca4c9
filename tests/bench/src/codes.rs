//! Codes that are hard to screen, of any length: those of ../screen/cases_long_*.py, which say them
//! for 131,072 slots.

use original::emit::ebpf::insn::{
    Insn, BPF_CALL, BPF_EXIT, BPF_JA, BPF_JEQ_IMM, BPF_JNE_IMM, BPF_LD_DW_IMM, BPF_MOV64_IMM,
    BPF_MOV64_REG,
};

type Slot = [u8; 8];

/// The most that a jump's signed 16-bit distance reaches, in slots.
const HOP: usize = 32_768;

pub struct Code {
    pub bytes: Vec<u8>,
    pub relocs: Vec<u32>,
}

/// A shape's name and its code of some number of slots.
pub struct Shape {
    pub name: &'static str,
    pub of: fn(usize) -> Code,
}

pub const SHAPES: &[Shape] = &[
    Shape { name: "each slot jumps to the one before, round and round", of: round_and_round },
    Shape {
        name: "each slot jumps to the one before, a call at the bottom",
        of: call_at_the_bottom,
    },
    Shape { name: "each slot jumps to the one before, none is reached", of: none_reached },
    Shape { name: "each slot jumps to the next", of: to_the_next },
    Shape { name: "even slots up, odd slots down", of: up_and_down },
    Shape { name: "up, a call at the top, odd slots read R1", of: up_and_down_read },
    Shape { name: "conditional jumps up and down, a call at the top", of: up_and_down_both },
    Shape { name: "zigzag as wide as a jump can be", of: zigzag_plain },
    Shape { name: "zigzag of conditional jumps", of: zigzag_conditional },
    Shape { name: "narrow zigzag", of: zigzag_narrow },
    Shape { name: "each slot jumps back or goes on, a call at the top", of: ladder_back },
    Shape { name: "as far back as it can, R1 killed at the top", of: ladder_far_back },
    Shape { name: "two up, one back", of: ladder_two_up },
    Shape { name: "map loads only", of: loads_only },
    Shape { name: "map loads into each register in turn", of: loads_each },
    Shape { name: "map loads on odd slots, then exit", of: loads_odd },
    Shape { name: "each third slot jumps to the load before", of: loads_and_jumps },
    Shape { name: "a run of map loads, a run of jumps into it", of: jumps_into_loads },
    Shape { name: "the same, the last jump into a second slot", of: jumps_into_a_second_slot },
    Shape { name: "lookups, each in a loop", of: lookups },
    Shape { name: "R1 read in the body, killed at its end", of: killed_late },
    Shape { name: "a kill in every third slot", of: killed_often },
    Shape { name: "small loops that kill what they read", of: small_loops },
    Shape { name: "diamonds and a call", of: diamonds },
    Shape { name: "ten entries before the body", of: widening },
    Shape { name: "nine ways back to the body, jumps to the slot before", of: returning },
];

// ---- instructions

fn slot(code: u8, dst: u8, src: u8, off: i16, imm: i32) -> Slot {
    Insn::new(code, dst, src, off, imm).to_le_bytes()
}

fn mov(dst: u8, imm: i32) -> Slot {
    slot(BPF_MOV64_IMM, dst, 0, 0, imm)
}

fn copy(dst: u8, src: u8) -> Slot {
    slot(BPF_MOV64_REG, dst, src, 0, 0)
}

fn add(dst: u8, imm: i32) -> Slot {
    slot(0x07, dst, 0, 0, imm)
}

fn load(dst: u8, src: u8, off: i16) -> Slot {
    slot(0x79, dst, src, off, 0)
}

fn store(dst: u8, src: u8, off: i16) -> Slot {
    slot(0x7b, dst, src, off, 0)
}

fn ja(off: i16) -> Slot {
    slot(BPF_JA, 0, 0, off, 0)
}

fn jeq(dst: u8, off: i16) -> Slot {
    slot(BPF_JEQ_IMM, dst, 0, off, 0)
}

fn jne(dst: u8, off: i16) -> Slot {
    slot(BPF_JNE_IMM, dst, 0, off, 0)
}

fn call(helper: i32) -> Slot {
    slot(BPF_CALL, 0, 0, 0, helper)
}

fn exit() -> Slot {
    slot(BPF_EXIT, 0, 0, 0, 0)
}

/// A map load: two slots, the second all zero.
fn wide(dst: u8) -> [Slot; 2] {
    [slot(BPF_LD_DW_IMM, dst, 1, 0, 0), [0; 8]]
}

const WRITABLE: [u8; 9] = [0, 2, 3, 4, 5, 6, 7, 8, 9];

/// Makes every register readable.
fn all_readable() -> [Slot; 9] {
    WRITABLE.map(|register| mov(register, 0))
}

// ---- putting a code together

struct Builder {
    slots: Vec<Slot>,
}

impl Builder {
    fn new() -> Builder {
        Builder { slots: Vec::new() }
    }

    fn len(&self) -> usize {
        self.slots.len()
    }

    fn add(mut self, pattern: &[Slot]) -> Builder {
        self.slots.extend_from_slice(pattern);
        self
    }

    /// The pattern as often as it fits before slot `until`, then jumps to the next slot.
    fn fill(mut self, pattern: &[Slot], until: usize) -> Builder {
        while self.len() + pattern.len() <= until {
            self.slots.extend_from_slice(pattern);
        }
        self.slots.resize(until, ja(0));
        self
    }

    /// A jump to a slot; `instruction` makes one from its distance.
    fn jump(self, instruction: impl Fn(i16) -> Slot, target: usize) -> Builder {
        let distance = target as i64 - self.len() as i64 - 1;
        let distance = i16::try_from(distance).expect("a jump of a shape is in range");
        self.add(&[instruction(distance)])
    }

    /// The code, with a relocation for each map load.
    fn code(self) -> Code {
        let is_load = |at: &usize| self.slots[*at][0] == BPF_LD_DW_IMM;
        let loads: Vec<usize> = (0..self.len()).filter(is_load).collect();
        let relocs = loads.iter().enumerate().flat_map(|(map, at)| [8 * *at as u32, map as u32]);
        Code { relocs: relocs.collect(), bytes: self.slots.concat() }
    }
}

// ---- walks

/// Slot 0 leads to the last slot by hops; from there each slot jumps to the one before, round the
/// hops, down to slot 1.
fn backwards(slots: usize, at_bottom: Slot) -> Code {
    let last = slots - 1;
    let mut code = Builder::new().jump(ja, last.min(HOP)).add(&[at_bottom]);
    let mut hop = HOP;
    while hop < last {
        code = code.fill(&[ja(-2)], hop).jump(ja, last.min(hop + HOP)).add(&[ja(-3)]);
        hop += HOP;
    }
    code.fill(&[ja(-2)], slots).code()
}

fn round_and_round(slots: usize) -> Code {
    backwards(slots, ja(-2))
}

fn call_at_the_bottom(slots: usize) -> Code {
    backwards(slots, call(5))
}

fn none_reached(slots: usize) -> Code {
    Builder::new().add(&[ja(-1)]).fill(&[ja(-2)], slots).code()
}

fn to_the_next(slots: usize) -> Code {
    Builder::new().fill(&[ja(0)], slots - 1).add(&[exit()]).code()
}

/// Even slots lead up two by two, odd slots back down.
fn both_ways(slots: usize, up: Slot, top: Slot, down: Slot, bottom: Slot) -> Code {
    Builder::new().add(&[up, bottom]).fill(&[up, down], slots - 2).add(&[top, down]).code()
}

fn up_and_down(slots: usize) -> Code {
    both_ways(slots, ja(1), ja(0), ja(-3), ja(-1))
}

fn up_and_down_read(slots: usize) -> Code {
    both_ways(slots, ja(1), call(5), jeq(1, -3), mov(0, 0))
}

fn up_and_down_both(slots: usize) -> Code {
    both_ways(slots, jeq(1, 1), call(5), jne(1, -3), mov(0, 0))
}

/// Parts of the code; in the first half of each, slot i leads half a part on, and that one back to
/// slot i + 1.
fn zigzag(slots: usize, forward: fn(i16) -> Slot, back: fn(i16) -> Slot, last: Slot) -> Code {
    let half = HOP.min(slots / 2);
    let on = (half - 1) as i16;
    let down = (-(half as i64)) as i16;
    let mut code = Builder::new();
    while code.len() < slots {
        let middle = code.len() + half;
        let end = middle + half;
        code = code.fill(&[forward(on)], middle).fill(&[back(down)], end - 1);
        code = code.add(&[if end < slots { ja(0) } else { last }]);
    }
    code.code()
}

fn zigzag_plain(slots: usize) -> Code {
    zigzag(slots, ja, ja, ja(-1))
}

fn zigzag_conditional(slots: usize) -> Code {
    zigzag(slots, |off| jeq(1, off), |off| jne(1, off), ja(-1))
}

fn zigzag_narrow(slots: usize) -> Code {
    Builder::new().fill(&[ja(2), ja(-2)], slots - 2).add(&[ja(-1), ja(-2)]).code()
}

// ---- ladders

fn ladder_back(slots: usize) -> Code {
    Builder::new().add(&[mov(0, 0)]).fill(&[jeq(1, -2)], slots - 2).add(&[call(5), ja(-3)]).code()
}

fn ladder_far_back(slots: usize) -> Code {
    let far = HOP.min(slots / 2);
    let back = jne(1, (-(far as i64)) as i16);
    let code = Builder::new().add(&[mov(0, 0)]).fill(&[jeq(1, 0)], far).fill(&[back], slots - 3);
    code.add(&[call(5), jeq(0, -3), exit()]).code()
}

fn ladder_two_up(slots: usize) -> Code {
    let code = Builder::new().add(&[mov(0, 0)]).fill(&[jeq(1, 1), jne(1, -2)], slots - 4);
    code.add(&[mov(2, 0), mov(2, 0), mov(2, 0), exit()]).code()
}

// ---- map loads

fn loads_only(slots: usize) -> Code {
    Builder::new().fill(&wide(1), slots).code()
}

fn loads_each(slots: usize) -> Code {
    let each: Vec<Slot> = (0..10).flat_map(wide).collect();
    let whole = slots / each.len() * each.len();
    Builder::new().fill(&each, whole).fill(&wide(1), slots).code()
}

fn loads_odd(slots: usize) -> Code {
    Builder::new().add(&[copy(6, 1)]).fill(&wide(0), slots - 1).add(&[exit()]).code()
}

fn loads_and_jumps(slots: usize) -> Code {
    let [first, second] = wide(0);
    let code = Builder::new().add(&[first, second, mov(2, 0)]);
    code.fill(&[first, second, jeq(0, -6)], slots - 1).add(&[exit()]).code()
}

/// Parts of the code; half of each is map loads, the other half jumps to their first slots.
fn into_loads(slots: usize, last: fn(i16) -> Slot) -> Code {
    let half = HOP.min(slots / 2);
    let far = (-(half as i64)) as i16;
    let jumps = [jeq(0, far + 1), jeq(0, far)];
    let mut code = Builder::new();
    while code.len() < slots {
        let middle = code.len() + half;
        let end = (middle + half).min(slots - 2);
        code = code.fill(&wide(0), middle).fill(&jumps, end);
        if end == slots - 2 {
            code = code.add(&[last(far), exit()]);
        }
    }
    code.code()
}

fn jumps_into_loads(slots: usize) -> Code {
    into_loads(slots, |_| mov(0, 0))
}

fn jumps_into_a_second_slot(slots: usize) -> Code {
    into_loads(slots, |far| jeq(0, far))
}

fn lookups(slots: usize) -> Code {
    let [first, second] = wide(1);
    let looped = [
        first,
        second,
        mov(2, 5),
        store(10, 2, -16),
        copy(2, 10),
        add(2, -16),
        call(1),
        store(10, 0, -8),
        jne(0, -9),
    ];
    Builder::new().add(&[copy(6, 1)]).fill(&looped, slots - 1).add(&[exit()]).code()
}

// ---- loops

const SECTION: usize = 32_000;

/// The body as often as it fits; the tail; back to the body's first slot or on to exit. Since a
/// jump may not reach so far, every section of the body ends with a way back.
fn long_loop(slots: usize, body: &[Slot], tail: &[Slot]) -> Code {
    let mut code = Builder::new().add(&all_readable());
    let mut way_back = code.len();
    let end = slots - tail.len() - 2;
    while end - code.len() > SECTION {
        let section = code.len() + SECTION;
        code = code.fill(body, section).add(&[ja(1)]).jump(ja, way_back);
        way_back = section + 1;
    }
    code.fill(body, end).add(tail).jump(|off| jeq(0, off), way_back).add(&[exit()]).code()
}

fn killed_late(slots: usize) -> Code {
    long_loop(slots, &[load(0, 1, 0)], &[call(5)])
}

fn killed_often(slots: usize) -> Code {
    long_loop(slots, &[add(6, 1), call(14), mov(3, 0)], &[copy(7, 3)])
}

fn small_loops(slots: usize) -> Code {
    long_loop(slots, &[mov(1, 0), copy(7, 1), call(5), jeq(0, -3)], &[mov(2, 0)])
}

fn diamonds(slots: usize) -> Code {
    long_loop(slots, &[jeq(6, 2), mov(2, 0), ja(1), mov(3, 0), call(5)], &[copy(7, 0)])
}

/// Before each register is written, a jump leads into the body: ten sets of registers walk through.
fn widening(slots: usize) -> Code {
    let mut code = Builder::new();
    for register in WRITABLE {
        code = code.jump(|off| jeq(1, off), 2 * WRITABLE.len()).add(&[mov(register, 0)]);
    }
    code.fill(&[jeq(1, 0)], slots - 2).add(&[mov(0, 0), exit()]).code()
}

/// The body is walked with all registers readable; then nine ways lead back from behind it, each
/// with one less. The ways forward from slot 0 and back stand between the body's sections.
fn returning(slots: usize) -> Code {
    let body = [jne(1, -2)];
    let after = [mov(0, 0), exit()];
    let behind: usize = (0..WRITABLE.len()).map(|kept| kept + 2).sum();
    let end = slots - behind - after.len();

    let first = 1 + WRITABLE.len() + SECTION;
    let sections: Vec<usize> = (first..end).step_by(SECTION + 3).collect();
    let forward = sections.iter().map(|section| section + 1).chain([slots - behind]);
    let forward: Vec<usize> = forward.collect();
    let mut code = Builder::new().jump(|off| jeq(1, off), forward[0]).add(&all_readable());
    let mut way_back = code.len();
    for (section, next) in sections.iter().zip(&forward[1..]) {
        code = code.fill(&body, *section).add(&[ja(2)]).jump(ja, *next).jump(ja, way_back);
        way_back = section + 2;
    }
    code = code.fill(&body, end).add(&after);
    for kept in (0..WRITABLE.len()).rev() {
        // The last entry has none to go on to and leads back on both sides.
        let next = code.len() + if kept > 0 { kept + 2 } else { 1 };
        let entry: Vec<Slot> = WRITABLE[..kept].iter().map(|register| mov(*register, 0)).collect();
        code = code.jump(|off| jne(1, off), next).add(&entry).jump(ja, way_back);
    }
    code.code()
}
