"""Jumps at full size, 131,072 slots: walks backwards, zigzags, ladders, and targets at the edge of 16 bits."""

from asm import RETURN_0, call, copy, exit_, ja, jeq, jne, ldx, mov
from insn import Insn, encode
from longcode import BACKWARD, FORWARD, SLOTS, LongCode

LAST = SLOTS - 1
HOP = 32_768


def backwards(title, at_bottom):
    """Slot 0 leads to the last slot in four hops; from there each slot jumps to the one before, round the hops.

    `at_bottom` is slot 1, where the walk over all slots ends.
    """
    code = LongCode()
    code.add(ja(HOP - 1))
    code.add(at_bottom)
    for hop in (HOP, 2 * HOP, 3 * HOP):
        code.fill(ja(-2), hop)
        code.jump(ja, min(hop + HOP, LAST))
        # The slot after a hop goes round it.
        code.add(ja(-3))
    code.fill(ja(-2), SLOTS)
    return code.case(title)


def walks():
    yield backwards("each slot jumps to the one before, round and round", ja(-2))
    yield backwards("each slot jumps to the one before, exit at the bottom", exit_())
    yield backwards("each slot jumps to the one before, R0 written at the bottom", mov(0, 0))
    yield backwards("each slot jumps to the one before, a call at the bottom", call(5))
    yield backwards("each slot jumps to the one before, itself at the bottom", ja(-1))
    yield LongCode().add(ja(-1)).add(ja(-2), LAST).case("each slot jumps to the one before, none is reached")
    yield LongCode().add(ja(0), LAST).add(ja(-1)).case("each slot jumps to the next")
    yield LongCode().add(ja(0), LAST).add(exit_()).case("each slot jumps to the next, then exit")
    yield LongCode().add(ja(-1), SLOTS).case("each slot jumps to itself")
    yield LongCode().add(mov(0, 0), SLOTS).case("no jump and no exit")


def up_and_down(title, up, top, down, bottom):
    """Even slots lead up two by two, odd slots back down; `top` is the slot before the last, `bottom` slot 1."""
    code = LongCode().add(up).add(bottom)
    code.add(up + down, (SLOTS - 4) // 2)
    code.add(top).add(down)
    return code.case(title)


def up_and_down_walks():
    yield up_and_down("even slots up, odd slots down", ja(1), ja(0), ja(-3), ja(-1))
    yield up_and_down("even slots up, odd slots down, then exit", ja(1), ja(0), ja(-3), exit_())
    yield up_and_down("even slots up, R0 written at the top, odd slots down", ja(1), mov(0, 0), ja(-3), exit_())
    yield up_and_down("even slots up, a call at the top, odd slots down", ja(1), call(5), ja(-3), exit_())
    yield up_and_down("up, a call at the top, odd slots read R1", ja(1), call(5), jeq(1, -3), mov(0, 0))
    yield up_and_down("conditional jumps up and down", jeq(1, 1), ja(0), jne(1, -3), mov(0, 0))
    yield up_and_down("conditional jumps up and down, a call at the top", jeq(1, 1), call(5), jne(1, -3), mov(0, 0))


def zigzag(title, forward, back, last):
    """Two halves of the code; in each, slot i leads 32,768 slots on and that one back to slot i + 1."""
    code = LongCode()
    code.add(forward(FORWARD), HOP).add(back(BACKWARD), HOP - 1).add(ja(0))
    code.add(forward(FORWARD), HOP).add(back(BACKWARD), HOP - 1).add(last)
    return code.case(title)


def zigzags():
    def on_r1(off):
        return jeq(1, off)

    def on_r1_not(off):
        return jne(1, off)

    yield zigzag("zigzag as wide as a jump can be", ja, ja, ja(-1))
    yield zigzag("zigzag as wide as a jump can be, then exit", ja, ja, exit_())
    yield zigzag("zigzag, then back to its middle", ja, ja, ja(BACKWARD))
    yield zigzag("zigzag of conditional jumps", on_r1, on_r1_not, ja(-1))
    yield zigzag("zigzag of conditional jumps on the way back", ja, on_r1, exit_())
    yield zigzag("zigzag of conditional jumps, then past the last slot", on_r1, ja, mov(0, 0))
    # Three forward, one back: slots 0, 3, 2, 5, 4, 7 and so on.
    for last, what in ((ja(-1), "itself"), (exit_(), "exit"), (copy(6, 1), "round the last two slots")):
        code = LongCode().add(ja(2) + ja(-2), SLOTS // 2 - 1).add(last).add(ja(-2))
        yield code.case(f"narrow zigzag, then {what}")


def ladders():
    def ladder(title, first, rung, *rest):
        code = LongCode().add(first)
        code.fill(rung, SLOTS - len(rest))
        for part in rest:
            code.add(part)
        return code.case(title)

    yield ladder("each slot jumps to the next or goes there", mov(0, 0), jeq(1, 0), exit_())
    yield ladder("each slot jumps to the next or goes there, R0 unreadable", copy(6, 1), jeq(1, 0), exit_())
    yield ladder("each slot jumps to the next or passes the end", mov(0, 0), jeq(1, 0), jeq(1, -1))
    yield ladder("each slot jumps back or goes on", mov(0, 0), jeq(1, -2), exit_())
    yield ladder("each slot jumps back or goes on, past the end", mov(0, 0), jne(1, -2), jeq(1, -2))
    yield ladder("each slot jumps back or goes on, a call at the top", mov(0, 0), jeq(1, -2), call(5), ja(-3))
    yield ladder("each slot jumps back on R6 or goes on, a call at the top", mov(6, 0), jeq(6, -2), call(5), ja(-3))
    yield ladder("R1 read in slot 0, killed at the top of the ladder", copy(6, 1), jeq(6, -2), call(5), ja(-3))
    yield ladder("each slot jumps two back or goes on", jeq(1, 0) + mov(0, 0), jne(1, -3), exit_())
    yield ladder("each slot jumps to itself or goes on", mov(0, 0), jeq(1, -1), exit_())
    yield ladder("two up, one back", mov(0, 0), jeq(1, 1) + jne(1, -2), *[mov(2, 0)] * 3, exit_())

    far_up = LongCode().add(mov(0, 0)).fill(jeq(1, FORWARD), SLOTS - HOP).fill(jne(1, 0), LAST).add(exit_())
    yield far_up.case("each slot jumps as far on as it can or goes on")
    far_down = LongCode().add(mov(0, 0)).fill(jeq(1, 0), HOP).fill(jne(1, BACKWARD), LAST).add(exit_())
    yield far_down.case("each slot jumps as far back as it can or goes on")
    killed = LongCode().add(mov(0, 0)).fill(jeq(1, 0), HOP).fill(jne(1, BACKWARD), SLOTS - 3)
    yield killed.add(call(5)).add(jeq(0, -3)).add(exit_()).case("as far back as it can, R1 killed at the top")


def edges():
    """Jumps of 32,767 and -32,768 slots, to the last slot, and one past it."""
    code = LongCode().jump(ja, HOP).fill(exit_(), HOP).jump(ja, 1)
    yield code.fill(copy(6, 1), SLOTS).case("32,768 slots on and to slot 1 again")
    code = LongCode().jump(ja, HOP).fill(exit_(), HOP).add(ja(BACKWARD))
    yield code.fill(copy(6, 1), SLOTS).case("32,768 slots on and as far back as can be")
    code = LongCode().jump(ja, HOP - 2).fill(mov(0, 0), HOP - 2).add(ja(BACKWARD))
    yield code.fill(exit_(), SLOTS).case("as far back as can be, one slot before slot 0")
    for off, what in ((0, "the slot count"), (-1, "itself"), (1, "one past the slot count"), (FORWARD, "far past")):
        code = LongCode().add(mov(0, 0), LAST).add(ja(off))
        yield code.case(f"the last slot jumps to {what}")
    first = SLOTS - HOP - 1
    for slot, what in ((first, "the last slot"), (first + 1, "the slot count")):
        code = LongCode().add(mov(0, 0), slot).add(jeq(0, FORWARD))
        yield code.fill(mov(0, 0), LAST).add(exit_()).case(f"from slot {slot} to {what}")
    code = LongCode().add(mov(0, 0), 65_536).add(ja(BACKWARD)).fill(ja(-1), SLOTS)
    yield code.case("a loop of 32,768 slots")


def faults_in_the_last_slot():
    faults = {
        32: encode(Insn(0)), 33: mov(10, 0), 34: exit_()[:7] + b"\x01", 35: ldx(8, 0, 10, -513), 36: ja(0),
        38: copy(6, 2), 39: copy(6, 1)}
    for number, fault in faults.items():
        yield LongCode().add(copy(6, 1), LAST).add(fault).case(f"{number} in the last slot")
    yield LongCode().add(RETURN_0).add(copy(6, 1), SLOTS - 3).add(copy(6, 2)).case("the last slot is not reached")


def cases():
    for subject in (walks, up_and_down_walks, zigzags, ladders, edges, faults_in_the_last_slot):
        yield from subject()
