//! A unit as data: what a unit file holds, in 01's words.

#[derive(Debug, Clone, PartialEq, Eq)]
pub struct Unit {
    /// Names; a map's number is its place in this list.
    pub maps: Vec<Vec<u8>>,
    pub blocks: Vec<Block>,
}

#[derive(Debug, Clone, PartialEq, Eq)]
pub struct Block {
    pub id: u32,
    pub instructions: Vec<Instruction>,
    pub terminator: Terminator,
}

#[derive(Debug, Clone, PartialEq, Eq)]
pub struct Instruction {
    pub result: u32,
    pub opcode: Opcode,
    pub operands: Vec<Operand>,
}

#[derive(Debug, Clone, Copy, PartialEq, Eq)]
pub enum Operand {
    Variable(u32),
    Immediate(i64),
}

#[derive(Debug, Clone, Copy, PartialEq, Eq)]
pub enum Opcode {
    HelperCall { id: u32 },
    LoadKey,
    Store { size: u8 },
    LoadCtx { offset: i32, size: u8 },
    LoadPacket { offset: i32, size: u8 },
    CopyCtxToMem { offset: i32, size: u32 },
    NullCheck,
    Binary { op: BinaryOp },
    CallMap { map: u32 },
    UpdateMap { map: u32 },
    RingBufReserve { map: u32, size: u32 },
    RingBufSubmit { map: u32 },
}

#[derive(Debug, Clone, Copy, PartialEq, Eq)]
pub enum BinaryOp {
    Add,
    Sub,
    Mul,
    Div,
    Mod,
    Shl,
    Shr,
}

impl BinaryOp {
    /// In the order of the file's numbers, 0 to 6.
    pub const ALL: [BinaryOp; 7] = [
        BinaryOp::Add,
        BinaryOp::Sub,
        BinaryOp::Mul,
        BinaryOp::Div,
        BinaryOp::Mod,
        BinaryOp::Shl,
        BinaryOp::Shr,
    ];
}

#[derive(Debug, Clone, Copy, PartialEq, Eq)]
pub enum Terminator {
    Return(Operand),
    Jump(u32),
    Branch { condition: Operand, on_true: u32, on_false: u32 },
}

/// Where each record lies: per block the byte offsets of its instructions, then its terminator's.
#[derive(Debug, Clone, PartialEq, Eq)]
pub struct Places(pub Vec<Vec<u32>>);

impl Places {
    pub fn of(&self, record: Record) -> u32 {
        self.0[record.block][record.index]
    }

    pub fn of_terminator(&self, block: usize) -> u32 {
        *self.0[block].last().expect("every block has a terminator")
    }
}

/// An instruction, or (one past the last of them) the terminator, of a block.
#[derive(Debug, Clone, Copy, PartialEq, Eq, PartialOrd, Ord)]
pub struct Record {
    pub block: usize,
    pub index: usize,
}

impl Unit {
    /// Instructions and terminators in file order.
    pub fn records(&self) -> Vec<Record> {
        let of_block = |(block, content): (usize, &Block)| {
            (0..=content.instructions.len()).map(move |index| Record { block, index })
        };
        self.blocks.iter().enumerate().flat_map(of_block).collect()
    }

    pub fn instruction(&self, record: Record) -> Option<&Instruction> {
        self.blocks[record.block].instructions.get(record.index)
    }
}

impl Terminator {
    /// The targets in the order in which their jumps are patched: a branch's false target first.
    pub fn targets_in_patch_order(&self) -> Vec<u32> {
        match *self {
            Terminator::Return(_) => vec![],
            Terminator::Jump(target) => vec![target],
            Terminator::Branch { on_true, on_false, .. } => vec![on_false, on_true],
        }
    }

    /// The same form with each target renamed, in patch order.
    pub fn with_targets(&self, mut rename: impl FnMut(u32) -> u32) -> Terminator {
        match *self {
            Terminator::Return(operand) => Terminator::Return(operand),
            Terminator::Jump(target) => Terminator::Jump(rename(target)),
            Terminator::Branch { condition, on_true, on_false } => {
                let on_false = rename(on_false);
                let on_true = rename(on_true);
                Terminator::Branch { condition, on_true, on_false }
            }
        }
    }

    /// The same form and targets with another operand.
    pub fn with_operand(&self, operand: Operand) -> Terminator {
        match *self {
            Terminator::Return(_) => Terminator::Return(operand),
            Terminator::Jump(target) => Terminator::Jump(target),
            Terminator::Branch { on_true, on_false, .. } => {
                Terminator::Branch { condition: operand, on_true, on_false }
            }
        }
    }
}
