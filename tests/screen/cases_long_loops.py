"""Loops at full size: a register is killed late, or lost again and again, and the whole loop must hear of it.

A jump reaches 32,768 slots back at most, so a longer loop has a way back through its body: every section of the body
ends with jumps that a path through the body steps over.
"""

from asm import ADD, ALL_READABLE, alu, call, copy, exit_, ja, jeq, jne, ldx, mov, stx
from insn import SLOT
from longcode import SLOTS, LongCode

SECTION = 32_000


def long_loop(title, body, tail, after, prologue=ALL_READABLE, back_on=jeq):
    """Prologue; the body as often as it fits; the tail; back to the body's first slot or on to `after`."""
    code = LongCode().add(prologue)
    way_back = code.slots
    end = SLOTS - (len(tail) + len(after)) // SLOT - 1
    while end - code.slots > SECTION:
        code.fill(body, code.slots + SECTION)
        code.add(ja(1))
        section = code.slots
        code.jump(ja, way_back)
        way_back = section
    code.fill(body, end)
    code.add(tail)
    code.jump(lambda off: back_on(0, off), way_back)
    return code.add(after).case(title)


def late_kills():
    nothing = alu(ADD, 6, 1)
    yield long_loop("R1 read in the body, killed at its end", ldx(8, 0, 1, 0), call(5), exit_())
    yield long_loop("R5 read in the body, killed at its end", copy(7, 5), call(5), exit_())
    yield long_loop("R1 written again after the kill, R5 read", copy(7, 5), call(14) + mov(1, 0), exit_())
    yield long_loop("R1 read in the body, written again after the kill", ldx(4, 0, 1, 0), call(5) + copy(1, 6), exit_())
    yield long_loop("R6 to R9 read in the body, a call at its end", alu(ADD, 6, 1) + stx(8, 7, 8, 0) + copy(9, 6),
                    call(15), exit_())
    yield long_loop("nothing killed is read", nothing, call(5), exit_())
    yield long_loop("R2 read just before the kill", nothing, copy(7, 2) + call(35), exit_())
    yield long_loop("R3 read after the loop", nothing, call(5), copy(7, 3) + exit_())
    yield long_loop("R1 to R4 killed, then needed by a call", nothing, call(2), exit_())
    yield long_loop("R4 and R5 killed, R1 to R3 written again", stx(8, 1, 4, 0),
                    call(115) + mov(1, 0) + mov(2, 0) + mov(3, 0), exit_())
    yield long_loop("the loop passes the last slot", nothing, call(5), mov(2, 0))
    yield long_loop("a kill in every hundredth slot", nothing * 99 + call(5), mov(0, 0), exit_())
    yield long_loop("a kill in every third slot", nothing + call(14) + mov(3, 0), copy(7, 3), exit_())
    yield long_loop("back when R0 is not 0", ldx(1, 2, 1, 9), call(131), exit_(), back_on=jne)


def small_loops():
    """The body is a small loop of its own."""
    inner = mov(1, 0) + copy(7, 1) + call(5) + jeq(0, -3)
    yield long_loop("small loops that kill what they read", inner, mov(2, 0), exit_())
    healthy = mov(1, 0) + copy(7, 1) + call(5) + jeq(0, -4)
    yield long_loop("small loops that write what they killed", healthy, mov(2, 0), exit_())
    diamond = jeq(6, 2) + mov(2, 0) + ja(1) + mov(3, 0)
    yield long_loop("diamonds that write R2 or R3", diamond, copy(7, 2) + call(5), exit_())
    yield long_loop("diamonds that write R2 or R3, nothing kept from before", diamond, copy(7, 6), exit_(),
                    prologue=mov(0, 0) + mov(6, 0))
    yield long_loop("diamonds and a call", diamond + call(5), copy(7, 0), exit_())


def widening_entries(title, body, after):
    """Before each of R0 and R2 to R9 is written, a jump leads into the body: ten sets of registers walk through it."""
    code = LongCode()
    registers = (0, 2, 3, 4, 5, 6, 7, 8, 9)
    top = 2 * len(registers)
    for register in registers:
        code.jump(lambda off: jeq(1, off), top)
        code.add(mov(register, 0))
    code.fill(body, SLOTS - len(after) // SLOT)
    return code.add(after).case(title)


def returning_entries(title, body, after):
    """The body is walked with all registers readable; then nine ways lead back from behind it, each with one less.

    A way forward from slot 0 to the entries behind the body, and a way back from them to its first slot, stand between
    the body's sections.
    """
    code = LongCode()
    entries = []
    registers = (0, 2, 3, 4, 5, 6, 7, 8, 9)
    for kept in range(len(registers) - 1, -1, -1):
        entries.append(b"".join(mov(register, 0) for register in registers[:kept]))
    behind = sum(len(entry) // SLOT + 2 for entry in entries)
    end = SLOTS - behind - len(after) // SLOT

    sections = range(1 + len(ALL_READABLE) // SLOT + SECTION, end, SECTION + 3)
    forward = [section + 1 for section in sections] + [SLOTS - behind]
    code.jump(lambda off: jeq(1, off), forward[0])
    code.add(ALL_READABLE)
    way_back = code.slots
    for section, next_forward in zip(sections, forward[1:]):
        code.fill(body, section)
        code.add(ja(2))
        code.jump(ja, next_forward)
        code.jump(ja, way_back)
        way_back = section + 2
    code.fill(body, end)
    code.add(after)
    for entry in entries:
        next_entry = code.slots + len(entry) // SLOT + 2
        # The last entry has none to go on to and leads back on both sides.
        code.jump(lambda off: jne(1, off), next_entry if next_entry < SLOTS else code.slots + 1)
        code.add(entry)
        code.jump(ja, way_back)
    return code.case(title)


def registers_lost_one_by_one():
    return_0 = mov(0, 0) + exit_()
    for build, what in ((widening_entries, "ten entries before the body"), (returning_entries, "nine ways back to it")):
        yield build(f"{what}, then R0 returned", jeq(1, 0), exit_())
        yield build(f"{what}, then 0 returned", jeq(1, 0), return_0)
        yield build(f"{what}, then R9 read", copy(1, 10), copy(1, 9) + return_0)
        yield build(f"{what}, R5 read throughout", copy(1, 5), return_0)
        yield build(f"{what}, jumps to the slot before", jne(1, -2), return_0)


def cases():
    for subject in (late_kills, small_loops, registers_lost_one_by_one):
        yield from subject()
