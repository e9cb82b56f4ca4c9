"""Random small codes, most of them well-formed, from a fixed seed."""

import random

from asm import ALU_CODES, alu, alu_reg, call, copy, exit_, ja, jeq, jne, ldx, mov, stx, wide
from paths import LAST_ARGUMENT
from shape import HELPERS
from stored import right_relocations, small

SEED = 131_072
WELL_FORMED = 1100
DAMAGED = 300
WIDTHS = (1, 2, 4, 8)


def register(rng, likely):
    """Mostly one that was written before, so that some codes are good."""
    return rng.choice(likely) if rng.random() < 0.97 else rng.randrange(11)


def changed_register(rng, likely):
    """One that may be written: not R10."""
    return register(rng, [known for known in likely if known != 10] or [0]) % 10


def helper(rng, likely):
    """Mostly one whose arguments were written before."""
    given = [number for number in HELPERS if set(range(1, LAST_ARGUMENT.get(number, 0) + 1)) <= set(likely)]
    return rng.choice(given if rng.random() < 0.95 else HELPERS)


def frame_offset(rng, width):
    return -width * rng.randint(1, 512 // width)


def instruction(rng, likely):
    """One instruction that is no jump. `likely` is kept up to date as if the code had no jumps."""
    def written():
        dst = rng.randrange(10)
        if dst not in likely:
            likely.append(dst)
        return dst

    kind = rng.randrange(10)
    width = rng.choice(WIDTHS)
    if kind == 0:
        return wide(written())
    if kind <= 2:
        return mov(written(), rng.randint(-9, 9))
    if kind == 3:
        src = register(rng, likely)
        return copy(written(), src)
    if kind == 4:
        return alu(rng.choice(ALU_CODES), changed_register(rng, likely), rng.randint(-9, 9))
    if kind == 5:
        return alu_reg(rng.choice(ALU_CODES), changed_register(rng, likely), register(rng, likely))
    if kind == 6:
        src = register(rng, likely)
        off = frame_offset(rng, width) if src == 10 else rng.randint(-40, 40)
        return ldx(width, written(), src, off)
    if kind == 7:
        dst = register(rng, likely)
        off = frame_offset(rng, width) if dst == 10 else rng.randint(-40, 40)
        return stx(width, dst, register(rng, likely), off)
    if kind == 8:
        number = helper(rng, likely)
        likely[:] = [0] + [known for known in likely if known > 5]
        return call(number)
    return mov(0, rng.randint(-9, 9))


def random_code(rng):
    """Instructions and jumps between them; a jump's distance is filled in when all starts are known."""
    likely = [1, 10]
    parts = []
    for _ in range(rng.randint(1, 14)):
        choice = rng.random()
        if choice < 0.22:
            parts.append(("conditional", register(rng, likely)))
        elif choice < 0.30:
            parts.append(("always", None))
        elif choice < 0.34 and 0 in likely:
            parts.append(exit_())
        else:
            parts.append(instruction(rng, likely))
    if rng.random() < 0.85:
        parts += [mov(0, 0), exit_()] if rng.random() < 0.8 else [exit_()]

    starts, slot = [], 0
    for part in parts:
        starts.append(slot)
        slot += len(part) // 8 if isinstance(part, bytes) else 1
    code = b""
    for start, part in zip(starts, parts):
        if isinstance(part, bytes):
            code += part
            continue
        # Most jumps lead forward, as in compiled code; a few lead back.
        forward = [target for target in starts if target > start]
        target = rng.choice(forward if forward and rng.random() < 0.65 else starts)
        kind, dst = part
        distance = target - start - 1
        code += ja(distance) if kind == "always" else rng.choice((jeq, jne))(dst, distance, rng.randint(-2, 2))
    return code


def table_length(rng, slots):
    choice = rng.random()
    if choice < 0.6:
        return slots
    if choice < 0.95:
        return slots + rng.randint(1, 4)
    return rng.randrange(slots)


def damaged(rng, code):
    """One or two bytes changed."""
    result = bytearray(code)
    for _ in range(rng.choice((1, 1, 2))):
        at = rng.randrange(len(result))
        result[at] = rng.choice((result[at] ^ 1 << rng.randrange(8), 0, 1, 10, 11, 0x18, 0xA1, 0xFF))
    return bytes(result)


def cases():
    rng = random.Random(SEED)
    for number in range(WELL_FORMED):
        code = random_code(rng)
        yield small(f"random code {number}", code, table=table_length(rng, len(code) // 8))
    for number in range(DAMAGED):
        whole = random_code(rng)
        code = damaged(rng, whole)
        # The relocations of the whole code: damage may make or unmake a map load.
        relocations = right_relocations(whole if rng.random() < 0.5 else code)
        yield small(f"random damage {number}", code, relocations, table_length(rng, len(code) // 8))
