"""Shape rules 32 to 36: every first byte, every field of every opcode, frame offsets, jump targets, helpers."""

import random

from asm import (
    ALL_READABLE, CALL, EXIT, JA, JEQ, JNE, LDX_CODES, OPCODES, RETURN_0, STX_CODES, WIDE, call, copy, exit_, ja,
    ldx, mov, sample_bytes, stx, wide)
from insn import Insn, encode
from shape import HELPERS
from stored import small

SEED = 33
FRAME_OFFSETS = (
    -32768, -1024, -520, -516, -514, -513, -512, -511, -510, -508, -506, -504, -257, -256, -16, -9, -8, -7, -6, -5,
    -4, -3, -2, -1, 0, 1, 2, 4, 8, 504, 512, 32767)

FIELDS = {
    "dst": (0, 1, 9, 10, 11, 12, 13, 14, 15),
    "src": (0, 1, 2, 9, 10, 11, 15),
    "off": (1, -1, -2, -8, 256, -256, 32767, -32768),
    "imm": (0, 1, -1, 256, -2**31, 2**31 - 1),
}


def in_context(instruction):
    """After every register was made readable, before a healthy return."""
    return ALL_READABLE + instruction + RETURN_0


def first_bytes():
    for code in range(256):
        yield small(f"first byte {code:#04x}, all else zero", encode(Insn(code)) + RETURN_0)
    # The same again at a later slot with other fields.
    rng = random.Random(SEED)
    for code in range(256):
        insn = Insn(code, rng.randrange(11), rng.randrange(11), rng.choice((0, -8, 1)), rng.choice((0, 1, 5)))
        yield small(f"first byte {code:#04x}, other fields", in_context(encode(insn)))


def healthy_opcodes():
    for code in OPCODES:
        yield small(f"healthy {code:#04x}", in_context(sample_bytes(code)))
        yield small(f"healthy {code:#04x} last", ALL_READABLE + sample_bytes(code))


def single_fields():
    for code in OPCODES:
        for field, values in FIELDS.items():
            for value in values:
                yield small(f"{code:#04x} with {field} {value}", in_context(sample_bytes(code, **{field: value})))


def pairs_of_faults():
    """Two changed fields: the lower number is named."""
    rng = random.Random(SEED + 1)
    for code in OPCODES:
        for _ in range(6):
            fields = rng.sample(sorted(FIELDS), 2)
            changed = {field: rng.choice(FIELDS[field]) for field in fields}
            yield small(f"{code:#04x} with {changed}", in_context(sample_bytes(code, **changed)))


def two_slots_at_fault():
    """A later slot with a lower number: the lower slot is named."""
    faults = {
        32: encode(Insn(0)), 33: mov(10, 0), 34: ja(0)[:4] + b"\x01\x00\x00\x00", 35: ldx(8, 0, 10, 0), 36: ja(99)}
    for first, one in faults.items():
        for second, other in faults.items():
            yield small(f"{first} before {second}", copy(6, 1) + one + mov(0, 0) + other + exit_())


def wide_loads():
    good = wide(1)
    for place in range(8, 16):
        for bit in (1, 128):
            bad = good[:place] + bytes([bit]) + good[place + 1:]
            yield small(f"second slot's byte {place - 8} is {bit}", copy(6, 1) + bad + RETURN_0)
    for code in OPCODES:
        yield small(f"second slot begins with {code:#04x}", good[:8] + encode(Insn(code)) + RETURN_0)
    yield small("second slot is an exit, jumped to", mov(0, 0) + ja(1) + good[:8] + exit_())
    yield small("wide load cut", good[:8])
    yield small("wide load cut after others", copy(6, 1) + good + good[:8])
    yield small("wide load cut, R11", encode(Insn(WIDE, 11, 1)))
    yield small("wide load cut, R10 and offset", encode(Insn(WIDE, 10, 1, 1)))
    yield small("wide load with offset", encode(Insn(WIDE, 2, 1, 1)) + bytes(8) + RETURN_0)
    yield small("wide load into R10 with offset", encode(Insn(WIDE, 10, 1, 1)) + bytes(8) + RETURN_0)
    yield small("wide load of a constant", encode(Insn(WIDE, 2, 0, 0, 7)) + bytes(8) + RETURN_0)
    yield small("three 0x18 slots and an exit", good[:8] * 3 + exit_())
    yield small("four 0x18 slots", good[:8] * 4)
    for dst in range(16):
        yield small(f"wide load into R{dst}", encode(Insn(WIDE, dst, 1)) + bytes(8) + RETURN_0)
    for src in range(16):
        yield small(f"wide load with source {src}", encode(Insn(WIDE, 4, src)) + bytes(8) + RETURN_0)


def frame_offsets():
    for width in LDX_CODES:
        for off in FRAME_OFFSETS:
            yield small(f"load {width} bytes at R10 {off:+}", ldx(width, 0, 10, off) + exit_())
            yield small(f"store {width} bytes at R10 {off:+}", stx(width, 10, 1, off) + RETURN_0)
        # No access through R10: any offset goes.
        for off in (-32768, -513, -3, 0, 1, 32767):
            yield small(f"load {width} bytes at R1 {off:+}", ldx(width, 0, 1, off) + exit_())
            yield small(f"store {width} bytes of R10 at R1 {off:+}", stx(width, 1, 10, off) + RETURN_0)
        yield small(f"store {width} bytes of R10 at R10 -1", stx(width, 10, 10, -1) + RETURN_0)
        yield small(f"load {width} bytes into R10 at R10 +1", ldx(width, 10, 10, 1) + RETURN_0)


def jump_targets():
    """Each kind of jump from three slots to every slot of a code with two map loads, and past both ends."""
    code = [copy(6, 1), mov(0, 0), wide(2), copy(7, 6), copy(8, 7), wide(3), copy(9, 6), exit_()]
    size = sum(len(part) for part in code) // 8
    for opcode in (JA, JEQ, JNE):
        for index in (1, 3, 6):
            slot = sum(len(part) for part in code[:index]) // 8
            for target in range(-3, size + 4):
                dst = 0 if opcode == JA else 1
                jump = encode(Insn(opcode, dst, off=target - slot - 1))
                parts = [*code[:index], jump, *code[index + 1:]]
                yield small(f"{opcode:#04x} at {slot} to {target} of {size}", b"".join(parts))
        for off in (32767, -32768):
            yield small(f"{opcode:#04x} by {off}", mov(0, 0) + encode(Insn(opcode, 0, off=off)) + exit_())
    yield small("jump to the last slot", mov(0, 0) + ja(1) + copy(6, 1) + exit_())
    yield small("jump to itself", ja(-1))
    yield small("jump to the slot count", ja(0))
    yield small("jump to -1", ja(-2))
    # Starts come from first bytes, in faulty code too: 36 at slot 0 comes before 32 at slot 1.
    cut_pair = wide(1)[:8] * 2
    yield small("jump into a bad wide load's second slot", ja(1) + cut_pair + RETURN_0)
    yield small("jump behind a bad wide load", ja(2) + cut_pair + RETURN_0)
    yield small("jump to a bad opcode", ja(1) + RETURN_0 + encode(Insn(0)))
    yield small("jump onto a cut wide load", ja(0) + wide(1)[:8])
    yield small("jump behind a cut wide load", ja(1) + wide(1)[:8])


def helpers():
    for helper in range(-2, 161):
        yield small(f"helper {helper}", in_context(call(helper)))
    for helper in HELPERS:
        for other in (helper + 256, helper + 65536, helper - 2**31, -helper):
            yield small(f"helper {other}", in_context(call(other)))
    for helper in (2**31 - 1, -2**31, 161, 211, 1000):
        yield small(f"helper {helper}", in_context(call(helper)))


def registers_of_stores():
    """A store's destination is read only, so R10 is allowed there, as it is in JEQ and JNE."""
    for code in STX_CODES.values():
        for dst in (9, 10, 11):
            for src in (9, 10, 11):
                yield small(f"{code:#04x} dst {dst} src {src}", in_context(encode(Insn(code, dst, src, -8))))
    for code in (CALL, EXIT, JA):
        for dst in (10, 11):
            imm = 5 if code == CALL else 0
            yield small(f"{code:#04x} with unused dst {dst}", in_context(encode(Insn(code, dst, 0, 0, imm))))


def cases():
    yield from first_bytes()
    yield from healthy_opcodes()
    yield from single_fields()
    yield from pairs_of_faults()
    yield from two_slots_at_fault()
    yield from wide_loads()
    yield from frame_offsets()
    yield from jump_targets()
    yield from helpers()
    yield from registers_of_stores()
