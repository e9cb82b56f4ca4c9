"""The bytes of a unit file's records, with every field free.

Nothing is checked here: a damaged unit is made by giving a field a value that the format forbids.
All numbers are little-endian.
"""

import struct

HEAD, MAP, BLOCK, INSTRUCTION, TERMINATOR = 1, 2, 3, 4, 5
RETURN, JUMP, BRANCH = 0, 1, 2
VARIABLE, IMMEDIATE = 0, 1


def record(kind, payload, length=None):
    """A u16 payload length, a u16 kind, then the payload; a `length` that is given may lie."""
    return struct.pack("<HH", len(payload) if length is None else length, kind) + payload


def head_payload(maps=0, blocks=0, edition=1):
    return struct.pack("<HHI", edition, maps, blocks)


def variable(number, zeros=bytes(4), tag=VARIABLE):
    return struct.pack("<BI", tag, number) + zeros


def immediate(number, tag=IMMEDIATE):
    return struct.pack("<Bq", tag, number)


def instruction_payload(opcode, operands=(), result=0, small=0, offset=0, number=0, count=None, zero=0):
    """`operands` are the operands' bytes; a `count` that is given may lie."""
    count = len(operands) if count is None else count
    fixed = struct.pack("<IBBBBiI", result, opcode, small, count, zero, offset, number)
    return fixed + b"".join(operands)


def return_payload(operand, form=RETURN):
    return bytes([form]) + operand


def jump_payload(target, form=JUMP):
    return struct.pack("<BI", form, target)


def branch_payload(condition, if_true, if_false, form=BRANCH):
    return bytes([form]) + condition + struct.pack("<II", if_true, if_false)


def head(maps=0, blocks=0, edition=1):
    return record(HEAD, head_payload(maps, blocks, edition))


def map_(name):
    return record(MAP, name)


def block(number):
    return record(BLOCK, struct.pack("<I", number))


def instruction(opcode, operands=(), **fields):
    return record(INSTRUCTION, instruction_payload(opcode, operands, **fields))


def return_(operand):
    return record(TERMINATOR, return_payload(operand))


def jump(target):
    return record(TERMINATOR, jump_payload(target))


def branch(condition, if_true, if_false):
    return record(TERMINATOR, branch_payload(condition, if_true, if_false))


def unit(names, *blocks):
    """A whole unit: its head counts the names and the blocks. A block's bytes are the sum of its records."""
    return head(len(names), len(blocks)) + b"".join(map_(name) for name in names) + b"".join(blocks)
