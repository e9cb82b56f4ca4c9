//! The place of a refusal. The original names none, so each is found by asking it about altered
//! units; nothing here knows how an instruction is checked or lowered.

use super::ask::compile;
use super::texts::Fault;
use crate::unit::{Block, Instruction, Opcode, Operand, Record, Terminator, Unit};
use std::collections::HashSet;

const HARMLESS: Operand = Operand::Immediate(0);

/// Refusals 10 to 17 and 20: the first record that brings the fault when all after it are silent.
///
/// Silencing keeps every block, id and target, so the same blocks are emitted. The fault is there
/// from the record at fault on, whichever later records are silent, so halving finds it.
pub fn first_record_at_fault(unit: &Unit, fault: &Fault) -> Record {
    let records = unit.records();
    let faulty_up_to = |record: &Record| {
        let front = silenced(unit, |other| other > *record);
        fault_of(&front).is_some_and(|found| found.number == fault.number)
    };
    let record = records[records.partition_point(|record| !faulty_up_to(record))];

    // Too many variables is a fault of many records together, every other one of a single record.
    if fault.number != 10 {
        let alone = silenced(unit, |other| other != record);
        assert_eq!(fault_of(&alone), Some(*fault), "the record is at fault by itself");
    }
    record
}

/// Refusal 18: each naming of the missing id gets an id of its own, so that the text tells them
/// apart. A missing id leads nowhere, so the same blocks are emitted.
pub fn terminator_with_no_target(unit: &Unit, fault: &Fault) -> usize {
    let missing = fault.told() as u32;
    let mut renamed = unit.clone();
    let mut unused = unused_ids(unit);
    let mut named_by = Vec::new();
    for (index, block) in renamed.blocks.iter_mut().enumerate() {
        block.terminator = block.terminator.with_targets(|target| {
            if target != missing {
                return target;
            }
            let own = unused.next().expect("fewer ids than u32s");
            named_by.push((own, index));
            own
        });
    }
    let found = fault_of(&renamed).expect("still refused");
    assert_eq!(found.number, 18, "still for a missing target");
    let naming = named_by.iter().find(|(own, _)| i64::from(*own) == found.told());
    naming.expect("still for the same naming").1
}

/// Refusal 19: the first jump in patch order whose distance is outside i16, from the layout that
/// the original itself gives (which blocks it emits, how many slots each takes).
pub fn terminator_out_of_range(unit: &Unit, fault: &Fault) -> usize {
    let layout = layout(unit);
    for &(block, _, end) in &layout {
        let targets = unit.blocks[block].terminator.targets_in_patch_order();
        // The last slot is the jump patched first; a branch's jump to true stands before it.
        for (own, target) in (0..end).rev().zip(targets) {
            let landing = layout.iter().rfind(|(other, ..)| unit.blocks[*other].id == target);
            let (_, start, _) = landing.expect("a missing target would have been refused before");
            let distance = *start as i64 - own as i64 - 1;
            if i16::try_from(distance).is_err() {
                assert_eq!(i64::from(target), fault.told(), "the original names this target");
                return block;
            }
        }
    }
    panic!("the original refuses a jump that is in range");
}

fn fault_of(unit: &Unit) -> Option<Fault> {
    compile(unit).err().map(|text| Fault::of(&text))
}

/// The unit with some records made harmless: an instruction dropped, an operand of a terminator
/// replaced by 0. Ids and targets stay.
fn silenced(unit: &Unit, silent: impl Fn(Record) -> bool) -> Unit {
    let mut unit = unit.clone();
    for (block, content) in unit.blocks.iter_mut().enumerate() {
        if silent(Record { block, index: content.instructions.len() }) {
            content.terminator = content.terminator.with_operand(HARMLESS);
        }
        let mut index = 0;
        content.instructions.retain(|_| {
            index += 1;
            !silent(Record { block, index: index - 1 })
        });
    }
    unit
}

fn unused_ids(unit: &Unit) -> impl Iterator<Item = u32> {
    let mut used = HashSet::new();
    for block in &unit.blocks {
        used.insert(block.id);
        used.extend(block.terminator.targets_in_patch_order());
    }
    (0..=u32::MAX).filter(move |id| !used.contains(id))
}

/// The emitted blocks in file order, each with its first slot and the slot after its last.
fn layout(unit: &Unit) -> Vec<(usize, usize, usize)> {
    let mut start = 1;
    let mut layout = Vec::new();
    for block in (0..unit.blocks.len()).filter(|block| is_emitted(unit, *block)) {
        let end = start + slots_of_block(unit, block);
        layout.push((block, start, end));
        start = end;
    }
    layout
}

/// A load of size 0 in this block alone is refused exactly when the block is emitted.
fn is_emitted(unit: &Unit, block: usize) -> bool {
    let mut planted = silenced(unit, |_| true);
    planted.blocks[block].instructions = vec![Instruction {
        result: 0,
        opcode: Opcode::LoadCtx { offset: 0, size: 0 },
        operands: vec![],
    }];
    fault_of(&planted).is_some_and(|fault| fault.number == 14)
}

/// Instructions and terminator are measured apart: a long block that jumps to itself could not be
/// measured whole.
fn slots_of_block(unit: &Unit, block: usize) -> usize {
    let Block { instructions, terminator, .. } = &unit.blocks[block];
    let returns = Terminator::Return(HARMLESS);
    let body = slots_alone(unit, instructions, &returns) - slots_alone(unit, &[], &returns);
    let entry_alone = 1;
    body + slots_alone(unit, &[], terminator) - entry_alone
}

/// Slots of the unit whose only emitted block has this content and jumps to itself. All blocks of
/// the unit follow, never reached, since a NullCheck looks at their branch conditions.
fn slots_alone(unit: &Unit, instructions: &[Instruction], terminator: &Terminator) -> usize {
    const ALONE: u32 = 0;
    const UNREACHED: u32 = 1;
    let alone = Block {
        id: ALONE,
        instructions: instructions.to_vec(),
        terminator: terminator.with_targets(|_| ALONE),
    };
    let unreached =
        |block: &Block| Block { id: UNREACHED, instructions: vec![], terminator: block.terminator };
    let blocks = std::iter::once(alone).chain(unit.blocks.iter().map(unreached)).collect();
    compile(&Unit { maps: vec![], blocks }).expect("nothing here is at fault").slots()
}
