"""Checks the reference reader and writer against units worked out by hand, and against each other.

    python3 selftest.py

Prints one line and exits with 0, or stops at the first check that fails.
"""

import layout
import make_units
import make_writer
from record import Block, Branch, Head, Immediate, Instruction, Jump, Map, Return, Var, to_bytes, write
from refusal import Refusal
from stored import Case, RepeatedCase, decoded
from unitfile import map_name, read_unit

# Map "seen", block 1, CallMap with result 4 and the immediate key 5, return variable 4; a line for each record.
SEEN = bytes.fromhex(
    "08000100" "0100" "0100" "01000000"
    "04000200" "7365656e"
    "04000300" "01000000"
    "19000400" "04000000" "09" "00" "01" "00" "00000000" "00000000" "01" "0500000000000000"
    "0a000500" "00" "00" "04000000" "00000000")

# Block 1 branches on immediate -1 to 2 and 1; block 2 jumps to 1.
BRANCHING = bytes.fromhex(
    "08000100" "0100" "0000" "02000000"
    "04000300" "01000000"
    "12000500" "02" "01" "ffffffffffffffff" "02000000" "01000000"
    "04000300" "02000000"
    "05000500" "01" "01000000")


def refusal_of(call, *arguments):
    try:
        call(*arguments)
    except Refusal as refusal:
        return refusal.number, refusal.place, refusal.value
    return None


def changed(unit, place, new):
    return unit[:place] + bytes([new]) + unit[place + 1:]


def known_units():
    seen = read_unit(SEEN)
    assert seen.head == Head(1, 1, 1)
    assert seen.maps == [(12, Map(b"seen"))]
    assert seen.blocks == [[
        (20, Block(1)),
        (28, Instruction(4, 9, operands=(Immediate(5),))),
        (57, Return(Var(4)))]]
    assert map_name(SEEN, 0) == b"seen" and map_name(SEEN, 1) is None

    branching = read_unit(BRANCHING)
    assert branching.blocks == [
        [(12, Block(1)), (20, Branch(Immediate(-1), 2, 1))],
        [(42, Block(2)), (50, Jump(1))]]


def known_refusals():
    """Each place and number is counted off the hexadecimal lines above."""
    assert refusal_of(read_unit, bytes(262_145)) == (1, 0, 0)
    assert refusal_of(read_unit, bytes(262_144)) == (3, 0, 0)
    assert refusal_of(read_unit, b"") == (2, 0, 0)
    assert refusal_of(read_unit, SEEN[:-1]) == (2, 57, 0)
    assert refusal_of(read_unit, SEEN[:57]) == (2, 57, 0)
    assert refusal_of(read_unit, SEEN + b"\x00") == (4, 71, 0)
    table = (
        (2, 2, (3, 0, 0)),    # the head's kind
        (0, 7, (3, 0, 0)),    # its length
        (4, 2, (3, 0, 0)),    # edition 2
        (6, 65, (3, 0, 0)),   # 65 maps
        (6, 0, (4, 12, 0)),   # no map is due
        (6, 2, (4, 20, 0)),   # a second map is due
        (8, 0, (4, 20, 0)),   # no block is due: bytes after the last record
        (8, 2, (2, 71, 0)),   # a second block is due
        (12, 60, (2, 12, 0)), # the name passes the end
        (14, 3, (4, 12, 0)),  # the map's kind
        (20, 5, (5, 20, 0)),  # the block's length; the length after it would make no sense either
        (22, 4, (4, 20, 0)),  # the block's kind
        (30, 6, (4, 28, 0)),  # the instruction's kind
        (36, 0, (5, 28, 0)),  # opcode 0
        (36, 13, (5, 28, 0)), # opcode 13
        (36, 11, None),       # RingBufReserve of map 0
        (37, 1, (5, 28, 0)),  # small, which CallMap does not use
        (38, 2, (5, 28, 0)),  # two operands said, one there
        (39, 1, (5, 28, 0)),  # the zero byte
        (40, 1, (5, 28, 0)),  # offset
        (44, 1, (5, 28, 0)),  # map 1 of 1
        (48, 2, (5, 28, 0)),  # the operand's tag
        (48, 0, None),        # immediate 5 read as variable 5
        (61, 1, (5, 57, 0)),  # a jump of ten bytes
        (67, 1, (5, 57, 0)),  # the four zero bytes of variable 4
        (70, 1, (5, 57, 0)),
    )
    for place, new, expected in table:
        unit = changed(SEEN, place, new)
        assert refusal_of(read_unit, unit) == expected, (place, new)
        assert refusal_of(map_name, unit, 0) == expected, (place, new)


def known_records():
    buffer = bytearray(b"\xaa" * 10)
    assert write(Map(b"ab"), 0, buffer) == 6
    assert buffer == bytes.fromhex("020002006162aaaaaaaa")
    assert refusal_of(write, Jump(3), 0, bytearray(8)) == (6, 0, 9)
    assert refusal_of(write, Instruction(0, 11, offset=1), 1, bytearray(0)) == (5, 0, 0)
    assert refusal_of(write, Instruction(0, 11, offset=0, number=1), 1, bytearray(0)) == (6, 0, 20)
    assert refusal_of(write, Head(1, 65, 0), 65, bytearray(12)) == (5, 0, 0)
    assert refusal_of(write, Map(bytes(65)), 0, bytearray(99)) == (5, 0, 0)


def records_of(unit):
    for place, record in unit.maps:
        yield place, record
    for block in unit.blocks:
        yield from block


def reader_and_writer_undo_each_other():
    """The records of every healthy unit in the list, written again, are the bytes that were read."""
    for case in make_units.cases():
        try:
            unit = read_unit(case.unit)
        except Refusal:
            continue
        written = to_bytes(unit.head)
        for place, record in records_of(unit):
            assert place == len(written), case.title
            buffer = bytearray(100)
            length = write(record, unit.head.maps, buffer)
            written += buffer[:length]
        assert written == case.unit, case.title


def list_coding():
    cases = list(make_units.cases())
    stored = b"".join(case.coded() for case in cases)
    assert list(decoded(stored)) == [(case.unit, case.asked) for case in cases]
    assert len(stored) < 1_500_000
    long = RepeatedCase("", 9, b"ab", b"xyz", 3)
    assert long.unit == b"abxyzxyzx"
    assert list(decoded(long.coded() + Case("", b"q", 1).coded())) == [(long.unit, 3), (b"q", 1)]


def every_answer_is_in_the_lists():
    readings = {make_units.reading_line(case.unit).split(" at ")[0] for case in make_units.cases()}
    assert {f"refused {number}" for number in range(1, 6)} <= readings
    writings = {make_writer.answer_lines(case)[0].split(" at ")[0] for case in make_writer.cases()}
    assert {"refused 5", "refused 6"} <= writings


def layout_of_the_known_units():
    layout_seen = layout.unit([b"seen"], layout.block(1)
                              + layout.instruction(9, [layout.immediate(5)], result=4)
                              + layout.return_(layout.variable(4)))
    assert layout_seen == SEEN
    assert layout.unit([], layout.block(1) + layout.branch(layout.immediate(-1), 2, 1),
                       layout.block(2) + layout.jump(1)) == BRANCHING


def main():
    known_units()
    known_refusals()
    known_records()
    layout_of_the_known_units()
    reader_and_writer_undo_each_other()
    list_coding()
    every_answer_is_in_the_lists()
    print("units: all checks hold")


if __name__ == "__main__":
    main()
