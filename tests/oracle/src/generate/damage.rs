//! Unit files that are not what they should be, and files at the format's limits.

use super::build::{
    bare, block, branch, immediate, instruction, jump, returns, single, unit, variable,
};
use super::points::p2;
use super::random::Random;
use super::Case;
use crate::unit::{BinaryOp, Opcode, Operand, Terminator, Unit};
use crate::unitfile::{
    BLOCK, HEAD, INSTRUCTION, LONGEST_FILE, LONGEST_NAME, MAP, MOST_BLOCKS, MOST_MAPS, TERMINATOR,
};
use crate::unitwriter::{head, record, records, write};

pub fn all() -> impl Iterator<Item = Case> {
    truncated()
        .chain(flipped())
        .chain(misplaced())
        .chain(misshapen())
        .chain(names())
        .chain(fields())
        .chain(counts())
        .chain(longest())
        .map(Case::of_file)
}

/// One bit, one byte, the end or a piece of the file changed at random.
pub fn at_random(file: &mut Vec<u8>, random: &mut Random) {
    for _ in 0..=random.below(2) {
        if file.is_empty() {
            file.push(random.number() as u8);
            continue;
        }
        let at = random.below(file.len());
        match random.below(6) {
            0 => file.truncate(at),
            1 => file[at] ^= 1 << random.below(8),
            2 => file[at] = random.number() as u8,
            3 => file.extend((0..=random.below(6)).map(|_| random.number() as u8)),
            4 => drop(file.remove(at)),
            _ => file.insert(at, random.pick(&[0, 1, 2, 4, 5, 255])),
        }
    }
}

/// A unit with two maps, every opcode, every terminator and both sorts of operand.
pub fn rich() -> Unit {
    let v = variable;
    let n = immediate;
    let first = vec![
        instruction(1, Opcode::HelperCall { id: 114 }, &[v(1), n(8), v(2)]),
        instruction(2, Opcode::LoadKey, &[v(1)]),
        instruction(3, Opcode::Store { size: 4 }, &[v(2), n(-1)]),
        instruction(4, Opcode::LoadCtx { offset: -16, size: 8 }, &[]),
        instruction(5, Opcode::LoadPacket { offset: 14, size: 2 }, &[]),
        instruction(6, Opcode::CopyCtxToMem { offset: 8, size: 64 }, &[v(1)]),
    ];
    let second = vec![
        instruction(7, Opcode::NullCheck, &[v(2)]),
        instruction(8, Opcode::Binary { op: BinaryOp::Mod }, &[v(4), n(10)]),
        instruction(1, Opcode::CallMap { map: 0 }, &[n(5)]),
        instruction(2, Opcode::UpdateMap { map: 1 }, &[v(5), n(6)]),
        instruction(3, Opcode::RingBufReserve { map: 1, size: 24 }, &[]),
        instruction(4, Opcode::RingBufSubmit { map: 1 }, &[v(3)]),
    ];
    Unit {
        maps: vec![b"events".to_vec(), b"".to_vec()],
        blocks: vec![
            block(10, first, jump(20)),
            block(20, second, branch(v(7), 10, 30)),
            bare(30, Terminator::Return(v(8))),
        ],
    }
}

fn samples() -> [Unit; 3] {
    [unit(0, vec![]), p2(), rich()]
}

/// Every front of a sample, and the sample with bytes after its last record.
pub fn truncated() -> impl Iterator<Item = Vec<u8>> {
    samples().into_iter().flat_map(|unit| {
        let file = write(&unit);
        let longer = (1..=9).flat_map(|count| [0, 5, 255].map(|byte| vec![byte; count]));
        let mut files: Vec<Vec<u8>> =
            longer.map(|more| [file.as_slice(), &more].concat()).collect();
        files.extend((0..=file.len()).map(|length| file[..length].to_vec()));
        files
    })
}

/// Every bit flipped, and every byte 0 or 255.
pub fn flipped() -> impl Iterator<Item = Vec<u8>> {
    samples().into_iter().flat_map(|unit| {
        let file = write(&unit);
        (0..file.len()).flat_map(move |at| {
            let byte = file[at];
            let bytes: Vec<u8> = (0..8).map(|bit| byte ^ 1 << bit).chain([0, 255]).collect();
            let file = file.clone();
            bytes.into_iter().map(move |byte| {
                let mut file = file.clone();
                file[at] = byte;
                file
            })
        })
    })
}

/// Records left out, repeated or swapped; records of every wrong kind.
pub fn misplaced() -> impl Iterator<Item = Vec<u8>> {
    samples().into_iter().flat_map(|unit| {
        let records = records(&unit);
        let mut files = Vec::new();
        for at in 0..records.len() {
            let mut without = records.clone();
            without.remove(at);
            files.push(without.concat());

            let mut twice = records.clone();
            twice.insert(at, records[at].clone());
            files.push(twice.concat());

            let mut swapped = records.clone();
            swapped.swap(at, (at + 1) % records.len());
            files.push(swapped.concat());

            for kind in
                [0, HEAD, MAP, BLOCK, INSTRUCTION, TERMINATOR, 6, 255, 256, 0x0400, 65_535_u16]
            {
                let mut other = records.clone();
                other[at][2..4].copy_from_slice(&kind.to_le_bytes());
                files.push(other.concat());
            }
        }
        files
    })
}

/// Records with a length that is not theirs: the length alone changed, or the payload with it.
pub fn misshapen() -> impl Iterator<Item = Vec<u8>> {
    samples().into_iter().flat_map(|unit| {
        let records = records(&unit);
        let mut files = Vec::new();
        for at in 0..records.len() {
            let length = records[at].len() - 4;
            let kind = u16::from_le_bytes([records[at][2], records[at][3]]);
            for wrong in [0, length.saturating_sub(1), length + 1, length + 9, 65_535] {
                let mut lied = records.clone();
                lied[at][..2].copy_from_slice(&(wrong as u16).to_le_bytes());
                files.push(lied.concat());

                let mut resized = records.clone();
                let mut payload = records[at][4..].to_vec();
                payload.resize(wrong, 0);
                resized[at] = record(kind, &payload);
                files.push(resized.concat());
            }
        }
        files
    })
}

/// Names of every length around the limit, and every pair of equal names.
pub fn names() -> impl Iterator<Item = Vec<u8>> {
    let named = |maps: &[&[u8]]| {
        let maps = maps.iter().map(|name| name.to_vec()).collect();
        write(&Unit { maps, blocks: vec![bare(1, returns(0))] })
    };
    let long = |last: u8| [&[b'x'; LONGEST_NAME - 1][..], &[last]].concat();
    let mut files = vec![
        named(&[b"", b""]),
        named(&[b"a", b"a"]),
        named(&[b"a", b"b", b"a"]),
        named(&[b"b", b"a", b"a"]),
        named(&[b"a", b"b", b"c", b"b", b"a"]),
        named(&[b"a", b"ab", b"", b"abc", b"A", b"a\0"]),
        named(&[&long(b'x'), &long(b'y')]),
        named(&[&long(b'y'), &long(b'y')]),
        named(&[b"\xff", b"\0", b"\n"]),
    ];
    for length in [0, 1, 63, 64, 65, 255, 256] {
        files.push(named(&[&vec![b'n'; length]]));
        files.push(named(&[b"first", &vec![b'n'; length]]));
    }
    files.into_iter()
}

/// An instruction record whose fields are given one by one.
struct Fields {
    opcode: u8,
    small: u8,
    count: u8,
    reserved: u8,
    offset: i32,
    number: u32,
    operands: Vec<u8>,
}

impl Fields {
    const MAPS: u32 = 2;

    fn of(opcode: u8) -> Fields {
        let operands = vec![];
        Fields { opcode, small: 0, count: 0, reserved: 0, offset: 0, number: 0, operands }
    }

    /// A file with this as its only instruction.
    fn file(&self) -> Vec<u8> {
        let mut payload = 3_u32.to_le_bytes().to_vec();
        payload.extend([self.opcode, self.small, self.count, self.reserved]);
        payload.extend(self.offset.to_le_bytes());
        payload.extend(self.number.to_le_bytes());
        payload.extend(&self.operands);
        let mut records = records(&unit(Fields::MAPS as usize, vec![bare(1, returns(0))]));
        let terminator = records.len() - 1;
        records.insert(terminator, record(INSTRUCTION, &payload));
        records.concat()
    }
}

/// Each field of each opcode with a value that it may not have, or may just have.
pub fn fields() -> impl Iterator<Item = Vec<u8>> {
    let mut files = Vec::new();
    for opcode in (0..=14).chain([128, 255]) {
        files.push(Fields::of(opcode).file());
        for small in [1, 6, 7, 8, 255] {
            files.push(Fields { small, ..Fields::of(opcode) }.file());
        }
        for offset in [1, 2, -1, 256, i32::MIN, i32::MAX] {
            files.push(Fields { offset, ..Fields::of(opcode) }.file());
        }
        for number in [1, Fields::MAPS, 256, 1 << 31, u32::MAX] {
            files.push(Fields { number, ..Fields::of(opcode) }.file());
        }
        for reserved in [1, 128] {
            files.push(Fields { reserved, ..Fields::of(opcode) }.file());
        }
        for (count, held) in [(1, 0), (0, 1), (8, 8), (9, 9), (7, 8), (255, 8)] {
            let operands = [0; 9].repeat(held);
            files.push(Fields { count, operands, ..Fields::of(opcode) }.file());
        }
    }
    files.extend(operands());
    files.into_iter()
}

/// Operands with a tag of no meaning, or a variable with more than four bytes.
fn operands() -> Vec<Vec<u8>> {
    let mut files = Vec::new();
    for tag in [0, 1, 2, 128, 255] {
        for upper in [0_u32, 1, 1 << 24, 1 << 31] {
            let mut operand = vec![tag];
            operand.extend(7_u32.to_le_bytes());
            operand.extend(upper.to_le_bytes());

            let good = [0_u8; 9];
            let pair = [&good[..], &operand].concat();
            files.push(Fields { count: 2, operands: pair, ..Fields::of(8) }.file());

            let returned = [&[0][..], &operand].concat();
            let condition = [&[2][..], &operand, &[1, 0, 0, 0, 1, 0, 0, 0]].concat();
            for payload in [returned, condition] {
                let mut records = records(&unit(0, vec![bare(1, returns(0))]));
                *records.last_mut().expect("a terminator") = record(TERMINATOR, &payload);
                files.push(records.concat());
            }
        }
    }
    for form in [3, 4, 255] {
        for length in [1, 5, 10, 18] {
            let mut records = records(&unit(0, vec![bare(1, returns(0))]));
            let payload = [&[form][..], &vec![0; length - 1]].concat();
            *records.last_mut().expect("a terminator") = record(TERMINATOR, &payload);
            files.push(records.concat());
        }
    }
    files
}

/// Heads that say more or less than follows, and counts at their limits.
pub fn counts() -> impl Iterator<Item = Vec<u8>> {
    let small = unit(1, vec![bare(1, returns(0))]);
    let with_head = |head: Vec<u8>| {
        let mut records = records(&small);
        records[0] = head;
        records.concat()
    };
    let mut files = Vec::new();
    for edition in [0, 1, 2, 256, 65_535] {
        files.push(with_head(head(edition, 1, 1)));
    }
    for maps in [0, 1, 2, MOST_MAPS, MOST_MAPS + 1, 256, 65_535] {
        files.push(with_head(head(1, maps, 1)));
    }
    for blocks in [0, 1, 2, MOST_BLOCKS, MOST_BLOCKS + 1, 65_537, u32::MAX] {
        files.push(with_head(head(1, 1, blocks)));
    }
    for maps in [MOST_MAPS - 1, MOST_MAPS, MOST_MAPS + 1] {
        let last = instruction(1, Opcode::CallMap { map: u32::from(maps) - 1 }, &[variable(1)]);
        let only = block(1, vec![last], returns(0));
        files.push(write(&unit(usize::from(maps), vec![only])));
    }
    for blocks in [MOST_BLOCKS, MOST_BLOCKS + 1] {
        // Each block leads to the next, so that all are emitted.
        let mut chain: Vec<_> = (1..blocks).map(|id| bare(id, jump(id + 1))).collect();
        chain.push(bare(blocks, returns(0)));
        files.push(write(&unit(0, chain)));
    }
    for count in [7, 8, 9] {
        let operands: Vec<Operand> = (0..count).map(immediate).collect();
        files.push(write(&single(Opcode::NullCheck, &operands)));
    }
    files.into_iter()
}

/// Files around the longest that is read.
pub fn longest() -> impl Iterator<Item = Vec<u8>> {
    let whole = longest_unit();
    let mut longer = whole.clone();
    longer.push(0);
    let cut = whole[..LONGEST_FILE - 1].to_vec();
    [whole, longer, cut, vec![0; LONGEST_FILE], vec![0; LONGEST_FILE + 1]].into_iter()
}

/// A valid file of exactly the greatest length: instructions of 20 bytes, the map's name making
/// up the rest.
fn longest_unit() -> Vec<u8> {
    let file = |name: usize, count: usize| {
        let load = instruction(1, Opcode::LoadCtx { offset: 0, size: 8 }, &[]);
        let only = block(1, vec![load; count], returns(0));
        write(&Unit { maps: vec![vec![b'n'; name]], blocks: vec![only] })
    };
    let per_instruction = file(0, 1).len() - file(0, 0).len();
    let left = LONGEST_FILE - file(0, 0).len();
    file(left % per_instruction, left / per_instruction)
}
