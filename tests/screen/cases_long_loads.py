"""Map loads at full size: long runs of 0x18 first bytes, jumps into them, long relocation lists."""

from asm import ADD, alu, call, copy, exit_, ja, jeq, jne, ldx, mov, stx, wide
from insn import Insn, encode
from longcode import FORWARD, SLOTS, LongCode
from stored import Listed, Pairs

LOADS = SLOTS // 2
ALL = Pairs(LOADS, 0, 16)
HALF = wide(1)[:8]

# Ten loads, one into each register.
EACH_REGISTER = b"".join(wide(register) for register in range(10))

# P2's lookup without its first slot and its return: eight slots.
LOOKUP = (wide(1) + mov(2, 5) + stx(8, 10, 2, -16) + copy(2, 10) + alu(ADD, 2, -16) + call(1) + stx(8, 10, 0, -8))


def nothing_but_loads():
    yield LongCode().add(wide(1), LOADS).case("map loads only", ALL)
    yield LongCode().add(wide(0), LOADS).case("map loads into R0 only", ALL)
    code = LongCode().add(EACH_REGISTER, 6553).add(wide(1), 6)
    yield code.case("map loads into each register in turn", ALL)
    code = LongCode().add(wide(0), LOADS - 1).add(mov(1, 0)).add(exit_())
    yield code.case("map loads, then exit", Pairs(LOADS - 1, 0, 16))
    code = LongCode().add(copy(6, 1)).add(wide(0), LOADS - 1).add(exit_())
    yield code.case("map loads on odd slots, then exit", Pairs(LOADS - 1, 8, 16))
    code = LongCode().add(copy(6, 1)).add(wide(0), LOADS - 1).add(HALF)
    yield code.case("map loads on odd slots, the last one cut", Pairs(LOADS, 8, 16))
    yield LongCode().add(HALF, SLOTS).case("every slot begins with 0x18", ALL)
    yield LongCode().add(copy(6, 1)).add(HALF, SLOTS - 1).case("every slot but the first begins with 0x18", ALL)
    code = LongCode().add(wide(0), LOADS - 1).add(HALF, 2)
    yield code.case("map loads, the last with a bad second slot", ALL)
    code = LongCode().add(wide(0), LOADS - 1).add(encode(Insn(0x18, 10, 1))).add(bytes(8))
    yield code.case("map loads, the last into R10", ALL)


def jumps_into_loads():
    for target, what in ((FORWARD, "second"), (FORWARD + 1, "first")):
        code = LongCode().jump(ja, target).add(copy(6, 1)).add(wide(0), LOADS - 2).add(mov(0, 0)).add(exit_())
        yield code.case(f"slot 0 jumps to a load's {what} slot", Pairs(LOADS - 2, 16, 16))
    for off, what in ((-2, "second"), (-3, "first")):
        code = LongCode().add(wide(0), LOADS - 1).add(mov(0, 0)).add(jeq(0, off - 1))
        yield code.case(f"the last slot jumps back to a load's {what} slot", Pairs(LOADS - 1, 0, 16))
    for off in (0, 1, 2, 30_000, 30_001):
        code = LongCode().add(ja(off)).add(HALF, SLOTS - 1)
        yield code.case(f"slot 0 jumps over {off} slots that begin with 0x18", ALL)
    # Loads and jumps in turn; every jump leads to the first, or to the second, slot of an earlier load.
    for off, what in ((-3, "own load"), (-6, "load before"), (-2, "own load's second slot")):
        code = LongCode().add(wide(0) + mov(2, 0)).add(wide(0) + jeq(0, off), 43_689).add(mov(3, 0), 1).add(exit_())
        yield code.case(f"each third slot jumps to its {what}", Pairs(43_690, 0, 24))


def long_lists():
    code = LongCode().add(wide(0), LOADS - 1).add(mov(1, 0)).add(exit_())
    for pairs, what in (
            (Pairs(LOADS - 2, 0, 16), "one pair too few"), (Pairs(LOADS, 0, 16), "one pair too many"),
            (Pairs(LOADS - 1, 0, 8), "steps of 8"), (Pairs(LOADS - 1, 16, 16), "one load late"),
            (Pairs(LOADS - 1, 8, 16), "second slots"), (Pairs(0, 0, 16), "no pairs"),
            (Pairs(40_000, 0, 16), "40,000 pairs")):
        yield code.case(f"65,535 map loads, {what}", pairs)
    yield code.case("65,535 map loads, three numbers", Listed((0, 0, 16)))
    yield LongCode().add(mov(0, 0), SLOTS - 1).add(exit_()).case("no map loads, 65,536 pairs", ALL)
    last_only = LongCode().add(copy(6, 1), SLOTS - 2).add(wide(0))
    yield last_only.case("one map load at the end", Pairs(1, 8 * (SLOTS - 2), 0))
    yield last_only.case("one map load at the end, its slot in the list", Pairs(1, SLOTS - 2, 0))


def long_programs():
    """What a compiler might write: lookups one after the other."""
    times = 16_000
    code = LongCode().add(copy(6, 1)).add(LOOKUP, times).add(ldx(8, 0, 10, -8)).add(exit_())
    code.fill(exit_(), SLOTS)
    yield code.case("16,000 lookups", Pairs(times, 8, 64))
    looped = LOOKUP + jne(0, -9)
    times = 14_000
    code = LongCode().add(copy(6, 1)).add(looped, times).add(exit_()).fill(exit_(), SLOTS)
    yield code.case("14,000 lookups, each in a loop", Pairs(times, 8, 72))
    reading = LOOKUP + ldx(8, 3, 1, 0)
    code = LongCode().add(copy(6, 1)).add(LOOKUP, times).add(reading).add(exit_()).fill(exit_(), SLOTS)
    yield code.case("14,001 lookups, R1 read after the last", Pairs(times + 1, 8, 64))


def cases():
    for subject in (nothing_but_loads, jumps_into_loads, long_lists, long_programs):
        yield from subject()
