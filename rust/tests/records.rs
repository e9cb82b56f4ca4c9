//! Records and instructions: read and written back.

mod common;

use shurtenbo::{
    decode, encode, read_record, write_record, BinaryOp, Due, Insn, Instruction, Opcode, Operand,
    Record, Refusal, Terminator,
};

fn instruction(opcode: Opcode, operands: &[Operand]) -> Record {
    Record::Instruction(Instruction { result: 7, opcode, operands: operands.to_vec() })
}

/// A record of each kind, opcode and form, with the kind that is due.
fn records() -> Vec<(Due, Record)> {
    let var = Operand::Var(u32::MAX);
    let low = Operand::Immediate(i64::MIN);
    let opcodes = [
        Opcode::HelperCall { id: 14 },
        Opcode::LoadKey,
        Opcode::Store { size: 255 },
        Opcode::LoadCtx { offset: i32::MIN, size: 3 },
        Opcode::LoadPacket { offset: -1, size: 8 },
        Opcode::CopyCtxToMem { offset: i32::MAX, size: u32::MAX },
        Opcode::NullCheck,
        Opcode::Binary { op: BinaryOp::Shr },
        Opcode::CallMap { map: 63 },
        Opcode::UpdateMap { map: 0 },
        Opcode::RingBufReserve { map: 63, size: u32::MAX },
        Opcode::RingBufSubmit { map: 5 },
    ];
    let mut all: Vec<_> = opcodes
        .iter()
        .enumerate()
        .map(|(k, &o)| (Due::Inside, instruction(o, &[var, low].repeat(4)[..k % 9])))
        .collect();
    all.push((Due::Head, Record::Head { edition: 1, maps: 64, blocks: 1024 }));
    all.push((Due::Block, Record::Block(u32::MAX)));
    all.push((Due::Inside, Record::Terminator(Terminator::Return(low))));
    all.push((Due::Inside, Record::Terminator(Terminator::Jump(9))));
    all.push((
        Due::Inside,
        Record::Terminator(Terminator::Branch {
            condition: var,
            true_block: 1,
            false_block: u32::MAX,
        }),
    ));
    all
}

#[test]
fn what_is_written_is_read_back() {
    for (due, r) in records() {
        let mut buffer = [0xaa; 100];
        let n = write_record(&r, &[], 64, &mut buffer).unwrap();
        assert_eq!(buffer[n..], [0xaa; 100][n..], "{r:?}");
        assert_eq!(read_record(&buffer[..n], 0, due, 64).unwrap(), (r, n));
    }
}

#[test]
fn a_name_is_where_its_record_says() {
    let mut buffer = [0; 8];
    let n = write_record(&Record::Map { start: 2, len: 4 }, b"[[seen]]", 1, &mut buffer).unwrap();
    assert_eq!(buffer[..n], common::map(b"seen"));
    assert_eq!(
        read_record(&buffer, 0, Due::Map, 1).unwrap(),
        (Record::Map { start: 4, len: 4 }, 8)
    );
}

#[test]
fn refusals_come_in_order() {
    let many = instruction(Opcode::LoadKey, &[Operand::Var(1); 9]);
    assert_eq!(
        write_record(&many, &[], 0, &mut []).unwrap_err(),
        Refusal { number: 5, place: 0, value: 0 }
    );
    let r = write_record(&Record::Block(1), &[], 0, &mut [0; 7]).unwrap_err();
    assert_eq!(r, Refusal { number: 6, place: 0, value: 8 });
    assert_eq!(read_record(&[], usize::MAX, Due::Head, 0).unwrap_err().number, 2);
    let block = common::block(1);
    assert_eq!(read_record(&block, 0, Due::Map, 0).unwrap_err().number, 4);
    assert_eq!(read_record(&block, 0, Due::Head, 0).unwrap_err().number, 3);
}

#[test]
fn instructions_and_their_bytes() {
    let i = Insn { code: 0x7b, dst: 10, src: 2, off: -16, imm: i32::MIN };
    let mut bytes = [0; 8];
    assert!(encode(i, &mut bytes));
    assert_eq!(bytes, [0x7b, 0x2a, 0xf0, 0xff, 0, 0, 0, 0x80]);
    assert_eq!(decode(&bytes), Some(i));
    assert_eq!(decode(&bytes[..7]), None);
    let mut nine = [1; 9];
    assert!(!encode(i, &mut nine));
    assert_eq!(nine, [1; 9]);
}
