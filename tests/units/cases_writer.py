"""The cases of the record writer: each record's value, a map count and a buffer's room."""

import struct
from dataclasses import dataclass

import layout
from opcodes import (
    BINARY, BINARY_OPERATIONS, CALL_MAP, COPY_CTX_TO_MEM, HELPER_CALL, LOAD_CTX, LOAD_KEY, LOAD_PACKET, MAP_FIELD,
    RING_BUF_RESERVE, STORE, UPDATE_MAP, USED_FIELDS)
from record import Block, Branch, Head, Immediate, Instruction, Jump, Map, Return, Var, operand_bytes, to_bytes


@dataclass(frozen=True)
class Case:
    title: str
    value: object
    map_count: int
    room: int

    def coded(self):
        return struct.pack("<II", self.room, self.map_count) + coded_value(self.value)


def coded_value(value):
    """A kind and the record's fields, wide enough for values that a record cannot hold."""
    if isinstance(value, Head):
        return struct.pack("<BHHI", layout.HEAD, value.edition, value.maps, value.blocks)
    if isinstance(value, Map):
        return struct.pack("<BI", layout.MAP, len(value.name)) + value.name
    if isinstance(value, Block):
        return struct.pack("<BI", layout.BLOCK, value.number)
    if isinstance(value, Instruction):
        fields = struct.pack(
            "<BIBBBiI", layout.INSTRUCTION, value.result, value.opcode, value.small, len(value.operands),
            value.offset, value.number)
        return fields + b"".join(operand_bytes(operand) for operand in value.operands)
    if isinstance(value, Return):
        return struct.pack("<BB", layout.TERMINATOR, layout.RETURN) + operand_bytes(value.operand)
    if isinstance(value, Jump):
        return struct.pack("<BBI", layout.TERMINATOR, layout.JUMP, value.target)
    return (struct.pack("<BB", layout.TERMINATOR, layout.BRANCH) + operand_bytes(value.condition)
            + struct.pack("<II", value.if_true, value.if_false))


def fitting(title, value, map_count=0):
    """Just enough room, one byte too few, and some to spare."""
    needed = len(to_bytes(value))
    yield Case(title, value, map_count, needed)
    yield Case(f"{title}, one byte too few", value, map_count, needed - 1)
    yield Case(f"{title}, five bytes to spare", value, map_count, needed + 5)


def heads():
    for maps, blocks in ((0, 0), (64, 1024), (1, 3)):
        yield from fitting(f"head of {maps} maps and {blocks} blocks", Head(1, maps, blocks))
    # The map count that the writer is given is not the head's.
    yield Case("head of 3 maps, map count 2", Head(1, 3, 1), 2, 12)
    for maps, blocks in ((65, 0), (256, 0), (65535, 0), (0, 1025), (0, 65536), (0, 2**32 - 1), (65, 1025)):
        yield Case(f"head of {maps} maps and {blocks} blocks", Head(1, maps, blocks), 64, 12)
    yield Case("head of 65 maps, map count 65", Head(1, 65, 1), 65, 12)
    yield Case("head of 65 maps and no room", Head(1, 65, 1), 0, 0)
    for edition in (0, 2, 256, 257, 65535):
        yield Case(f"edition {edition}", Head(edition, 0, 0), 0, 12)


def maps():
    for length in (0, 1, 63, 64):
        yield from fitting(f"name of {length} bytes", Map(bytes(range(length))))
    for length in (65, 66, 256, 300):
        yield Case(f"name of {length} bytes", Map(b"n" * length), 1, 100)
    # The low 16 bits of this length are 4.
    yield Case("name of 65,540 bytes", Map(b"n" * 65_540), 1, 100)
    yield Case("name of 65 bytes and no room", Map(b"n" * 65), 1, 0)


def blocks():
    for number in (0, 1, 2**32 - 1):
        yield from fitting(f"block {number}", Block(number))


def instructions():
    for opcode, used in USED_FIELDS.items():
        plain = {field: 2 for field in used}
        yield from fitting(f"opcode {opcode}", Instruction(7, opcode, operands=(Var(1), Immediate(-2)), **plain), 3)
    for count in range(9):
        operands = tuple(Var(2**32 - 1 - i) if i % 2 else Immediate(-2**63 + i) for i in range(count))
        yield from fitting(f"{count} operands", Instruction(2**32 - 1, HELPER_CALL, number=114, operands=operands))
    for operation in range(BINARY_OPERATIONS):
        yield Case(f"Binary {operation}", Instruction(1, BINARY, operation, operands=(Var(1), Var(2))), 0, 38)
    for opcode, field, value in (
            (HELPER_CALL, "number", 2**32 - 1), (STORE, "small", 255),
            (LOAD_CTX, "offset", -2**31), (LOAD_CTX, "offset", 2**31 - 1), (LOAD_PACKET, "offset", -1),
            (COPY_CTX_TO_MEM, "offset", -2**31), (COPY_CTX_TO_MEM, "number", 2**32 - 1),
            (RING_BUF_RESERVE, "number", 2**32 - 1)):
        yield Case(f"opcode {opcode}, {field} {value}", Instruction(0, opcode, **{field: value}), 1, 24)


def map_numbers():
    for opcode, field in MAP_FIELD.items():
        def case(number, count, room=20):
            value = Instruction(3, opcode, **{field: number})
            return Case(f"opcode {opcode}, map {number} of {count}, room {room}", value, count, room)

        for number, count in ((0, 0), (0, 1), (1, 1), (4, 5), (5, 5), (63, 64), (64, 64)):
            yield case(number, count)
        # A map count above 64 is taken as it is.
        for number, count in ((64, 65), (65, 65), (65534, 65535), (65535, 65535), (2**31 - 1, 65535)):
            yield case(number, count)
        if field == "number":
            yield case(2**32 - 1, 64)
        # 5 before 6.
        yield case(2, 2, room=0)
    # RingBufReserve's map is its offset; its number is the size.
    yield Case("RingBufReserve, map 0 of 1, size 9", Instruction(3, RING_BUF_RESERVE, offset=0, number=9), 1, 20)
    yield Case("RingBufReserve, map 9 of 1, size 0", Instruction(3, RING_BUF_RESERVE, offset=9, number=0), 1, 20)


def terminators():
    for operand in (Var(0), Var(2**32 - 1), Immediate(0), Immediate(-1), Immediate(2**63 - 1), Immediate(-2**63)):
        yield from fitting(f"return {operand}", Return(operand))
        yield from fitting(f"branch on {operand}", Branch(operand, 1, 2**32 - 1))
    for target in (0, 258, 2**32 - 1):
        yield from fitting(f"jump to {target}", Jump(target))


def rooms():
    """Every room from none to one more than needed: nothing is written before the room is known."""
    for value, count in (
            (Head(1, 2, 3), 0), (Map(b"abc"), 0), (Jump(5), 0), (Instruction(1, CALL_MAP, operands=(Var(4),)), 1)):
        for room in range(len(to_bytes(value)) + 2):
            yield Case(f"{type(value).__name__} in {room} bytes", value, count, room)
    yield Case("a large buffer", Instruction(1, UPDATE_MAP, number=1, operands=(Var(4), Var(5))), 2, 256)
    yield Case("an empty name in a large buffer", Map(b""), 0, 256)
    yield Case("LoadKey without operands in a large buffer", Instruction(0, LOAD_KEY), 0, 256)


def cases():
    for subject in (heads, maps, blocks, instructions, map_numbers, terminators, rooms):
        yield from subject()
