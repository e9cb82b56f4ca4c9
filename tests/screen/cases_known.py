"""The known points' codes, and lengths of code and table: refusals 30 and 31."""

from asm import ADD, RETURN_0, alu, call, copy, exit_, ja, ldx, mov, stx, wide
from insn import Insn, encode
from stored import Case, Listed, small

NO_RELOCATIONS = Listed(())
SLOTS = 131_072

# P2: map "seen" is asked for key 5, the answer returned.
LOOKUP = (copy(6, 1) + wide(1) + mov(2, 5) + stx(8, 10, 2, -16) + copy(2, 10) + alu(ADD, 2, -16) + call(1)
          + stx(8, 10, 0, -8) + ldx(8, 0, 10, -8) + exit_())


def known_points():
    yield small("P1", bytes.fromhex("bf16000000000000b7000000000000009500000000000000"))
    yield small("P2", LOOKUP)
    yield small("P3", bytes.fromhex("bf16000000000000"))
    yield small("P4", bytes.fromhex("bf160000000000000500ffff00000000"))
    yield small("P5", copy(6, 1) + ja(2) + mov(0, 1) + exit_() + mov(0, 2) + exit_())
    yield small("P11", bytes.fromhex("9500000000000000"))


def lengths():
    yield small("no code", b"")
    yield small("no code, a table of 5", b"", table=5)
    yield small("no code, relocations", b"", (0, 0))
    for length in range(1, 16):
        yield small(f"{length} bytes", (RETURN_0)[:length], table=4)
    yield small("17 bytes, no table", RETURN_0 + b"\x00", table=0)
    for extra in (1, 4, 7):
        yield Case(f"131,071 slots and {extra} bytes", ((SLOTS - 2, mov(0, 0)), (1, exit_())), NO_RELOCATIONS,
                   SLOTS, bytes(extra))
        yield Case(f"131,072 slots and {extra} bytes", ((SLOTS - 1, mov(0, 0)), (1, exit_())), NO_RELOCATIONS,
                   SLOTS, bytes(extra))
    yield Case("131,072 slots", ((SLOTS - 1, mov(0, 0)), (1, exit_())), NO_RELOCATIONS, SLOTS)
    yield Case("131,073 slots", ((SLOTS, mov(0, 0)), (1, exit_())), NO_RELOCATIONS, SLOTS + 1)
    yield Case("131,073 slots and no table", ((SLOTS, mov(0, 0)), (1, exit_())), NO_RELOCATIONS, 0)
    yield Case("131,073 bad slots", ((SLOTS + 1, bytes(8)),), NO_RELOCATIONS, SLOTS + 1)


def tables():
    codes = {
        "yes": RETURN_0,
        "yes with a map load": LOOKUP,
        "bad opcode": encode(Insn(0xFF)) + exit_(),
        "unreadable register": exit_(),
        "past the last slot": copy(6, 1) + mov(0, 0),
    }
    for what, code in codes.items():
        slots = len(code) // 8
        for table in sorted({0, 1, slots - 1, slots, slots + 1, slots + 2, 40, 41, 100}):
            yield small(f"{what}, {slots} slots, a table of {table}", code, table=table)
    long = ((39, copy(6, 1)), (1, exit_()))
    for table in (39, 40, 41):
        yield Case(f"40 slots, a table of {table}", long, NO_RELOCATIONS, table)
    longest = ((SLOTS - 2, copy(6, 1)), (1, mov(0, 0)), (1, exit_()))
    for table in (0, 1, 65_536, SLOTS - 1, SLOTS, SLOTS + 1, SLOTS + 1000):
        yield Case(f"131,072 slots, a table of {table}", longest, NO_RELOCATIONS, table)


def first_of_several():
    """30 before 31, 31 before the shape rules, these before 37, that before 38 and 39."""
    yield small("bad opcode, wrong relocations", encode(Insn(0)), (1, 1))
    yield small("bad opcode, no table", encode(Insn(0)), table=0)
    yield small("wrong relocations, no table", RETURN_0, (0, 0), table=1)
    yield small("wrong relocations, unreadable register", exit_(), (0, 0))
    yield small("wrong relocations, past the last slot", mov(0, 0), (0,))
    yield small("unreadable register, past the last slot", copy(6, 2))
    yield small("unreadable register, then a bad opcode", copy(6, 2) + encode(Insn(0)))


def cases():
    yield from known_points()
    yield from lengths()
    yield from tables()
    yield from first_of_several()
