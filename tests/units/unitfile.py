"""The reader of a unit file, sentence by sentence as the format is stated.

A unit is read whole: refusal 1 first, then record by record, 2 before 3 or 4 before 5. The place of a refusal is
the byte offset of the first record at fault; refusals 1 to 5 state no value.

As a program it reads one unit from standard input and prints `good maps M blocks B`, or the refusal.
"""

import struct
import sys
from dataclasses import dataclass, field

import layout
from record import (
    EDITION, LONGEST_NAME, MOST_BLOCKS, MOST_MAPS, MOST_OPERANDS,
    Block, Branch, Head, Immediate, Instruction, Jump, Map, Return, Var, instruction_keeps_rules)
from refusal import Refusal

LONGEST_UNIT = 262_144
RECORD_HEADER = 4
HEAD_PAYLOAD = 8
OPERAND = 9
INSTRUCTION_FIXED = 16


class BrokenPayload(Exception):
    """A payload breaks the rules of its kind; the caller knows the record's place."""


@dataclass
class Unit:
    """The records in file order, each with its place; a block's records are its instructions and its terminator."""
    head: Head
    maps: list = field(default_factory=list)
    blocks: list = field(default_factory=list)


def due_record(unit, place):
    """The kind and the payload of the record due at `place`, and the place after it: refusal 2."""
    if len(unit) - place < RECORD_HEADER:
        raise Refusal(2, place)
    length, kind = struct.unpack_from("<HH", unit, place)
    end = place + RECORD_HEADER + length
    if end > len(unit):
        raise Refusal(2, place)
    return kind, unit[place + RECORD_HEADER:end], end


def must(rule):
    if not rule:
        raise BrokenPayload


def read_operand(payload):
    """Tag 0, u32 variable, four zero bytes; or tag 1, i64 immediate."""
    tag = payload[0]
    if tag == layout.VARIABLE:
        must(payload[5:9] == bytes(4))
        return Var(struct.unpack_from("<I", payload, 1)[0])
    must(tag == layout.IMMEDIATE)
    return Immediate(struct.unpack_from("<q", payload, 1)[0])


def read_head(kind, payload):
    """The head, or nothing where the first record is no valid head."""
    if kind != layout.HEAD or len(payload) != HEAD_PAYLOAD:
        return None
    head = Head(*struct.unpack("<HHI", payload))
    if head.edition != EDITION or head.maps > MOST_MAPS or head.blocks > MOST_BLOCKS:
        return None
    return head


def read_map(payload, earlier_names):
    must(len(payload) <= LONGEST_NAME)
    must(payload not in earlier_names)
    return Map(payload)


def read_block(payload):
    must(len(payload) == 4)
    return Block(struct.unpack("<I", payload)[0])


def read_instruction(payload, map_count):
    must(len(payload) >= INSTRUCTION_FIXED)
    result, opcode, small, count, zero, offset, number = struct.unpack_from("<IBBBBiI", payload)
    must(count <= MOST_OPERANDS)
    must(zero == 0)
    must(len(payload) == INSTRUCTION_FIXED + OPERAND * count)
    starts = range(INSTRUCTION_FIXED, len(payload), OPERAND)
    operands = tuple(read_operand(payload[start:start + OPERAND]) for start in starts)
    instruction = Instruction(result, opcode, small, offset, number, operands)
    must(instruction_keeps_rules(instruction, map_count))
    return instruction


def read_terminator(payload):
    must(len(payload) >= 1)
    form = payload[0]
    if form == layout.RETURN:
        must(len(payload) == 10)
        return Return(read_operand(payload[1:]))
    if form == layout.JUMP:
        must(len(payload) == 5)
        return Jump(struct.unpack_from("<I", payload, 1)[0])
    must(form == layout.BRANCH)
    must(len(payload) == 18)
    return Branch(read_operand(payload[1:10]), *struct.unpack_from("<II", payload, 10))


def read_due(unit, place, readers):
    """Reads the record due at `place`; `readers` holds a payload's reader for each kind that is due."""
    kind, payload, end = due_record(unit, place)
    if kind not in readers:
        raise Refusal(4, place)
    try:
        return readers[kind](payload), end
    except BrokenPayload:
        raise Refusal(5, place) from None


def read_unit(unit):
    """The unit that the bytes hold."""
    if len(unit) > LONGEST_UNIT:
        raise Refusal(1, 0)

    kind, payload, place = due_record(unit, 0)
    head = read_head(kind, payload)
    if head is None:
        raise Refusal(3, 0)
    result = Unit(head)

    names = set()
    for _ in range(head.maps):
        record, end = read_due(unit, place, {layout.MAP: lambda payload: read_map(payload, names)})
        names.add(record.name)
        result.maps.append((place, record))
        place = end

    inside_block = {
        layout.INSTRUCTION: lambda payload: read_instruction(payload, head.maps),
        layout.TERMINATOR: read_terminator,
    }
    for _ in range(head.blocks):
        record, end = read_due(unit, place, {layout.BLOCK: read_block})
        records = [(place, record)]
        place = end
        while not isinstance(record, (Return, Jump, Branch)):
            record, end = read_due(unit, place, inside_block)
            records.append((place, record))
            place = end
        result.blocks.append(records)

    if place != len(unit):
        raise Refusal(4, place)
    return result


def map_name(unit, number):
    """The bytes of a map's name, or nothing where there is no such map; after the reading refusals."""
    maps = read_unit(unit).maps
    if number >= len(maps):
        return None
    return maps[number][1].name


def main():
    if len(sys.argv) > 1:
        print(__doc__)
        return
    try:
        head = read_unit(sys.stdin.buffer.read()).head
        print(f"good maps {head.maps} blocks {head.blocks}")
    except Refusal as refusal:
        print(refusal)


if __name__ == "__main__":
    main()
