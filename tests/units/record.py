"""One record's value, and the record writer.

The writer takes a value, the map count and a buffer. It answers the bytes written, or refuses with 5 where the
value breaks the format's rules, then with 6 where the buffer is too short. A refusal leaves the buffer as it was.

The map count bounds map numbers only: it is not compared with a head's own count, and a count above 64 is taken
as it is. "No name twice" is a rule of a whole file and not of one record.
"""

from dataclasses import dataclass

import layout
from opcodes import BINARY, BINARY_OPERATIONS, FIELDS, MAP_FIELD, USED_FIELDS
from refusal import Refusal

EDITION = 1
MOST_MAPS = 64
MOST_BLOCKS = 1024
LONGEST_NAME = 64
MOST_OPERANDS = 8


@dataclass(frozen=True)
class Var:
    number: int


@dataclass(frozen=True)
class Immediate:
    value: int


@dataclass(frozen=True)
class Head:
    edition: int
    maps: int
    blocks: int


@dataclass(frozen=True)
class Map:
    name: bytes


@dataclass(frozen=True)
class Block:
    number: int


@dataclass(frozen=True)
class Instruction:
    result: int
    opcode: int
    small: int = 0
    offset: int = 0
    number: int = 0
    operands: tuple = ()


@dataclass(frozen=True)
class Return:
    operand: object


@dataclass(frozen=True)
class Jump:
    target: int


@dataclass(frozen=True)
class Branch:
    condition: object
    if_true: int
    if_false: int


def keeps_rules(value, map_count):
    """Whether a value of the right types keeps the rules of its record."""
    if isinstance(value, Head):
        return value.edition == EDITION and value.maps <= MOST_MAPS and value.blocks <= MOST_BLOCKS
    if isinstance(value, Map):
        return len(value.name) <= LONGEST_NAME
    if isinstance(value, Instruction):
        return instruction_keeps_rules(value, map_count)
    return True


def instruction_keeps_rules(value, map_count):
    if value.opcode not in USED_FIELDS or len(value.operands) > MOST_OPERANDS:
        return False
    for field in FIELDS:
        if field not in USED_FIELDS[value.opcode] and getattr(value, field) != 0:
            return False
    if value.opcode == BINARY and value.small >= BINARY_OPERATIONS:
        return False
    if value.opcode in MAP_FIELD:
        return 0 <= getattr(value, MAP_FIELD[value.opcode]) < map_count
    return True


def operand_bytes(operand):
    if isinstance(operand, Var):
        return layout.variable(operand.number)
    return layout.immediate(operand.value)


def to_bytes(value):
    """The bytes of a value that keeps the rules."""
    if isinstance(value, Head):
        return layout.head(value.maps, value.blocks, value.edition)
    if isinstance(value, Map):
        return layout.map_(value.name)
    if isinstance(value, Block):
        return layout.block(value.number)
    if isinstance(value, Instruction):
        operands = [operand_bytes(operand) for operand in value.operands]
        return layout.instruction(
            value.opcode, operands,
            result=value.result, small=value.small, offset=value.offset, number=value.number)
    if isinstance(value, Return):
        return layout.return_(operand_bytes(value.operand))
    if isinstance(value, Jump):
        return layout.jump(value.target)
    return layout.branch(operand_bytes(value.condition), value.if_true, value.if_false)


def write(value, map_count, buffer):
    """Fills the buffer's front with the record and answers its length."""
    if not keeps_rules(value, map_count):
        raise Refusal(5, 0)
    written = to_bytes(value)
    if len(buffer) < len(written):
        raise Refusal(6, 0, len(written))
    buffer[:len(written)] = written
    return len(written)
