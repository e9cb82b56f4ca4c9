"""Units with one broken rule of the record table: refusals 3 and 5.

The broken record stands in the second block of a unit with two maps, so that its place is not the file's start.
"""

import struct

from layout import (
    BLOCK, BRANCH, HEAD, INSTRUCTION, JUMP, RETURN, TERMINATOR, block, branch_payload, head, head_payload,
    immediate, instruction, instruction_payload, jump, jump_payload, map_, record, return_, return_payload, unit,
    variable)
from opcodes import (
    BINARY, CALL_MAP, FIELDS, HELPER_CALL, LOAD_KEY, MAP_FIELD, NULL_CHECK, RING_BUF_RESERVE, STORE, UPDATE_MAP,
    USED_FIELDS)
from stored import Case

NAMES = [b"first", b"second"]
ZERO = return_(immediate(0))

# The lowest bit and the highest: a reader that looks at part of a field misses one of them.
NOT_ZERO = {"small": (1, 128), "offset": (1, -2**31), "number": (1, 2**31)}


def with_instruction(bad):
    return unit(NAMES, block(1) + jump(2), block(2) + bad + ZERO)


def with_terminator(bad):
    return unit(NAMES, block(1) + jump(2), block(2) + instruction(LOAD_KEY, [variable(1)]) + bad)


def heads():
    rest = b"".join(map_(name) for name in NAMES) + block(1) + ZERO
    good = head_payload(2, 1)
    yield Case("head that counts two maps and a block", record(HEAD, good) + rest)
    for edition in (0, 2, 256, 257, 65535):
        yield Case(f"edition {edition}", head(2, 1, edition) + rest)
    for length in (0, 1, 4, 7):
        yield Case(f"head of {length} bytes", record(HEAD, good[:length]) + rest)
    for more in (1, 8):
        yield Case(f"head with {more} bytes more", record(HEAD, good + bytes(more)) + rest)
    for maps in (65, 66, 256, 258, 65535):
        yield Case(f"head counts {maps} maps", head(maps, 1) + rest)
    for blocks in (1025, 1026, 65537, 2**31, 2**32 - 1):
        yield Case(f"head counts {blocks} blocks", head(2, blocks) + rest)


def unused_fields():
    for opcode, used in USED_FIELDS.items():
        for field in FIELDS:
            if field not in used:
                for value in NOT_ZERO[field]:
                    yield Case(f"opcode {opcode}, unused {field} is {value}", with_instruction(
                        instruction(opcode, [variable(1)], **{field: value})))


def reserved_byte():
    for opcode in USED_FIELDS:
        yield Case(f"opcode {opcode}, reserved byte 1", with_instruction(instruction(opcode, zero=1)))
    for zero in (128, 255):
        yield Case(f"reserved byte {zero}", with_instruction(instruction(HELPER_CALL, number=5, zero=zero)))


def opcode_numbers():
    for opcode in (0, 13, 14, 127, 128, 255):
        yield Case(f"opcode {opcode}", with_instruction(instruction(opcode)))
    for small in (6, 7, 8, 128, 134, 255):
        yield Case(f"Binary small {small}", with_instruction(
            instruction(BINARY, [variable(1), immediate(1)], small=small)))


def bad_operands():
    yield "tag 2", variable(1, tag=2)
    yield "tag 2 over an immediate", immediate(-1, tag=2)
    yield "tag 128", variable(1, tag=128)
    yield "tag 255", immediate(0, tag=255)
    for place in range(4):
        zeros = bytes(1 if i == place else 0 for i in range(4))
        yield f"tag 0, zero byte {place} is 1", variable(1, zeros)
    yield "tag 0, last zero byte is 128", variable(1, b"\x00\x00\x00\x80")
    yield "tag 0 over a negative immediate", immediate(-1, tag=0)


def good_operands():
    """The neighbours of the bad ones."""
    yield "tag 0 over a small immediate", immediate(7, tag=0)
    yield "tag 1 over a variable", variable(7, tag=1)
    yield "tag 1 over bytes that are not zero", variable(7, b"\x01\x02\x03\x80", tag=1)


def operands():
    for what, operand in (*bad_operands(), *good_operands()):
        yield Case(f"only operand: {what}", with_instruction(instruction(NULL_CHECK, [operand])))
        yield Case(f"last of eight operands: {what}", with_instruction(
            instruction(HELPER_CALL, [variable(2)] * 7 + [operand], number=114)))
        yield Case(f"returned operand: {what}", with_terminator(return_(operand)))
        yield Case(f"branch condition: {what}", with_terminator(
            record(TERMINATOR, branch_payload(operand, 1, 2))))
    yield Case("first of two operands: tag 2", with_instruction(
        instruction(STORE, [variable(1, tag=2), variable(2)], small=8)))


def operand_counts():
    operand = variable(1)
    for count in range(0, 11):
        yield Case(f"{count} operands", with_instruction(instruction(LOAD_KEY, [operand] * count)))
    for count, present in ((1, 0), (0, 1), (2, 1), (1, 2), (8, 7), (7, 8), (9, 8), (8, 9), (255, 1), (255, 255)):
        yield Case(f"count {count} over {present} operands", with_instruction(
            instruction(LOAD_KEY, [operand] * present, count=count)))


def instruction_lengths():
    whole = instruction_payload(UPDATE_MAP, [variable(1), immediate(2)], number=1)
    for length in range(len(whole)):
        yield Case(f"instruction of {length} bytes", with_instruction(record(INSTRUCTION, whole[:length])))
    for more in (1, 2, 8, 9, 10):
        yield Case(f"instruction with {more} bytes more", with_instruction(
            record(INSTRUCTION, whole + bytes(more))))


def map_numbers():
    for opcode, field in MAP_FIELD.items():
        numbers = [0, 1, 2, 3, 255, 256, 65536, 2**31 - 1]
        numbers += [-1, -2, -2**31] if field == "offset" else [2**31, 2**32 - 2, 2**32 - 1]
        for number in numbers:
            yield Case(f"opcode {opcode}, map {number} of 2", with_instruction(
                instruction(opcode, [variable(1)], **{field: number})), 1)
        yield Case(f"opcode {opcode}, map 0 of none", unit(
            [], block(1) + instruction(opcode, [variable(1)]) + ZERO))
        yield Case(f"opcode {opcode}, map 63 of 64", unit(
            [bytes([name]) for name in range(64)],
            block(1) + instruction(opcode, [variable(1)], **{field: 63}) + ZERO), 63)
        yield Case(f"opcode {opcode}, map 64 of 64", unit(
            [bytes([name]) for name in range(64)],
            block(1) + instruction(opcode, [variable(1)], **{field: 64}) + ZERO), 63)
    # The size of RingBufReserve is no map number, and its map is no size.
    for offset, number in ((1, 2), (1, 2**32 - 1), (2, 1), (-1, 0)):
        yield Case(f"RingBufReserve, map {offset}, size {number}", with_instruction(
            instruction(RING_BUF_RESERVE, offset=offset, number=number)))


def names():
    for length in (63, 64, 65, 66, 128, 255, 256, 300, 4096):
        yield Case(f"a name of {length} bytes", unit([b"first", b"n" * length, b"last"], block(1) + ZERO), 1)
    yield Case("two empty names", unit([b"", b""]))
    yield Case("two empty names with one between", unit([b"", b"a", b""]))
    yield Case("two equal names", unit([b"seen", b"seen"]))
    yield Case("first and last of four names equal", unit([b"a", b"b", b"c", b"a"], block(1) + ZERO))
    yield Case("second and third name equal", unit([b"a", b"b", b"b", b"c"], block(1) + ZERO))
    yield Case("two pairs of equal names", unit([b"a", b"b", b"b", b"a"], block(1) + ZERO))
    yield Case("equal names of 64 bytes", unit([b"n" * 64, b"m" * 64, b"n" * 64]))
    yield Case("two names of 65 equal bytes", unit([b"n" * 65, b"n" * 65]))
    yield Case("names equal up to a zero byte", unit([b"a", b"a\x00", b"a\x00\x00"]), 2)
    yield Case("name 63 of 64 is name 0", unit([bytes([name]) for name in range(63)] + [b"\x00"]))


def block_lengths():
    for length in (0, 1, 3, 4, 5, 8, 260):
        bad = record(BLOCK, bytes(length))
        yield Case(f"block of {length} bytes", unit(NAMES, block(1) + jump(2), bad + ZERO))


def terminators():
    for form in (3, 4, 128, 255):
        yield Case(f"form {form} over a return", with_terminator(
            record(TERMINATOR, return_payload(immediate(0), form))))
        yield Case(f"form {form} over a jump", with_terminator(record(TERMINATOR, jump_payload(1, form))))
        yield Case(f"form {form} over a branch", with_terminator(
            record(TERMINATOR, branch_payload(variable(1), 1, 2, form))))
    payloads = {
        RETURN: return_payload(immediate(0)),
        JUMP: jump_payload(1),
        BRANCH: branch_payload(immediate(0), 1, 2),
    }
    longest = max(len(payload) for payload in payloads.values()) + 2
    for form, payload in payloads.items():
        for length in range(1, longest + 1):
            yield Case(f"form {form} of {length} bytes", with_terminator(
                record(TERMINATOR, (payload + bytes(longest))[:length])))
        yield Case(f"form {form} of 256 bytes more", with_terminator(record(TERMINATOR, payload + bytes(256))))
    yield Case("terminator of no bytes", with_terminator(record(TERMINATOR, b"")))


def several_faults():
    """Of several broken records the first is named."""
    bad = instruction(CALL_MAP, number=2)
    worse = record(INSTRUCTION, b"")
    yield Case("two bad instructions", unit(NAMES, block(1) + bad + worse + ZERO))
    yield Case("bad instructions in two blocks", unit(NAMES, block(1) + worse + ZERO, block(2) + bad + ZERO))
    yield Case("bad instruction, then trailing bytes", unit(NAMES, block(1) + bad + ZERO) + b"\x00")
    yield Case("bad instruction, then the end", unit(NAMES, block(1) + bad))
    yield Case("equal names, then a bad block", unit([b"a", b"a"], record(BLOCK, b"")))
    yield Case("bad terminator, then a bad instruction", unit(
        NAMES, block(1) + record(TERMINATOR, struct.pack("<B", 9)), block(2) + bad + ZERO))


def cases():
    yield from heads()
    yield from unused_fields()
    yield from reserved_byte()
    yield from opcode_numbers()
    yield from operands()
    yield from operand_counts()
    yield from instruction_lengths()
    yield from map_numbers()
    yield from names()
    yield from block_lengths()
    yield from terminators()
    yield from several_faults()
