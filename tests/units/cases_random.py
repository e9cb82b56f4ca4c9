"""Random healthy units, and random damage of one or two bytes to them.

The seed is fixed, so that the same list comes out each time.
"""

import random

from layout import block, branch, immediate, instruction, jump, return_, unit, variable
from opcodes import BINARY, BINARY_OPERATIONS, MAP_FIELD, USED_FIELDS
from stored import Case

SEED = 9669
HEALTHY = 90
DAMAGED = 260


def any_of_bits(rng, bits):
    """A number of at most `bits` bits, small ones as likely as large ones."""
    return rng.getrandbits(rng.randint(1, bits))


def signed(rng, bits):
    return rng.choice((1, -1)) * any_of_bits(rng, bits - 1)


def operand(rng):
    return variable(any_of_bits(rng, 32)) if rng.random() < 0.6 else immediate(signed(rng, 64))


def random_instruction(rng, map_count):
    opcode = rng.choice([code for code in USED_FIELDS if map_count or code not in MAP_FIELD])
    fields = {}
    for field in USED_FIELDS[opcode]:
        if field == MAP_FIELD.get(opcode):
            fields[field] = rng.randrange(map_count)
        elif opcode == BINARY:
            fields[field] = rng.randrange(BINARY_OPERATIONS)
        else:
            fields[field] = {"small": any_of_bits(rng, 8), "offset": signed(rng, 32),
                             "number": any_of_bits(rng, 32)}[field]
    operands = [operand(rng) for _ in range(rng.choice((0, 1, 1, 2, 2, 3, 8)))]
    return instruction(opcode, operands, result=any_of_bits(rng, 32), **fields)


def random_terminator(rng):
    form = rng.randrange(3)
    if form == 0:
        return return_(operand(rng))
    if form == 1:
        return jump(rng.randrange(6))
    return branch(operand(rng), rng.randrange(6), rng.randrange(6))


def random_unit(rng):
    names = {rng.randbytes(rng.choice((0, 1, 2, 4, 8))) for _ in range(rng.randrange(5))}
    names = sorted(names)
    blocks = [
        block(rng.randrange(6))
        + b"".join(random_instruction(rng, len(names)) for _ in range(rng.randrange(4)))
        + random_terminator(rng)
        for _ in range(rng.randrange(5))]
    return unit(names, *blocks)


def damaged(rng, whole):
    """One or two bytes changed, removed or put in."""
    result = bytearray(whole)
    for _ in range(rng.choice((1, 1, 1, 2))):
        at = rng.randrange(len(result))
        how = rng.randrange(8)
        if how == 0:
            del result[at]
        elif how == 1:
            result.insert(at, rng.choice((0, 1, 255)))
        elif how < 5:
            result[at] ^= 1 << rng.randrange(8)
        else:
            result[at] = rng.choice((0, 1, 2, 3, 4, 5, 6, 9, 12, 13, 128, 255))
    return bytes(result)


def cases():
    rng = random.Random(SEED)
    for number in range(HEALTHY):
        yield Case(f"random unit {number}", random_unit(rng), rng.randrange(5))
    for number in range(DAMAGED):
        yield Case(f"random damage {number}", damaged(rng, random_unit(rng)), rng.randrange(5))
