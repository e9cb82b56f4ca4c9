"""Paths from slot 0: every (slot, readable registers) that some path meets.

A path is followed step by step, both sides of each conditional jump. Paths that stand on the same slot with the same
registers go on alike, so each pair is followed once; nothing is joined or approximated. What holds on every path to
a slot is then read off the pairs at that slot.

A set of registers is a number with bit r for register r.
"""

from insn import ALU_IMM, ALU_REG, CALL, EXIT, JA, JEQ, JNE, LDX, MOV_IMM, MOV_REG, STX, WIDE, form_of

AT_START = 1 << 1 | 1 << 10
ALL_REGISTERS = 2047
CALLER_SAVED = 0b111111
ANSWER = 1 << 0

# A call reads R1 to this register; the other helpers read none.
LAST_ARGUMENT = {1: 2, 132: 2, 2: 4, 113: 3, 114: 3, 115: 3, 131: 3}


def reads(insn):
    """The registers that an instruction reads."""
    form, dst, src = form_of(insn.code), 1 << insn.dst, 1 << insn.src
    if form in (LDX, MOV_REG):
        return src
    if form in (STX, ALU_REG):
        return dst | src
    if form in (ALU_IMM, JEQ, JNE):
        return dst
    if form == CALL:
        return sum(1 << register for register in range(1, LAST_ARGUMENT.get(insn.imm, 0) + 1))
    if form == EXIT:
        return ANSWER
    return 0


def readable_after(insn, readable):
    """A written register becomes readable; after a call only R0 of R0 to R5 is."""
    form = form_of(insn.code)
    if form in (WIDE, LDX, ALU_IMM, ALU_REG, MOV_IMM, MOV_REG):
        return readable | 1 << insn.dst
    if form == CALL:
        return readable & ~CALLER_SAVED | ANSWER
    return readable


def next_slots(insn, slot):
    form = form_of(insn.code)
    if form == EXIT:
        return ()
    if form == JA:
        return (slot + 1 + insn.off,)
    if form in (JEQ, JNE):
        return (slot + 1, slot + 1 + insn.off)
    if form == WIDE:
        return (slot + 2,)
    return (slot + 1,)


def followed(slots):
    """For each slot the sets of readable registers with which paths come to it; and whether one passes the end."""
    met = [None] * len(slots)
    passes_end = False
    waiting = [(0, AT_START)]
    while waiting:
        slot, readable = waiting.pop()
        if slot == len(slots):
            passes_end = True
            continue
        if met[slot] is None:
            met[slot] = set()
        if readable in met[slot]:
            continue
        met[slot].add(readable)
        insn = slots[slot]
        after = readable_after(insn, readable)
        waiting.extend((target, after) for target in next_slots(insn, slot))
    return met, passes_end


def on_every_path(sets):
    """The registers in each of the sets; all eleven where no path comes."""
    result = ALL_REGISTERS
    for readable in sets or ():
        result &= readable
    return result


def judged(slots):
    """The path fault as (number, place, value), or nothing; and the table of registers readable on every path."""
    met, passes_end = followed(slots)
    table = [on_every_path(sets) for sets in met]
    for slot, sets in enumerate(met):
        if sets is None:
            continue
        needed = reads(slots[slot])
        missing = 0
        for readable in sets:
            missing |= needed & ~readable
        if missing:
            lowest = next(register for register in range(11) if missing >> register & 1)
            return (38, slot, lowest), table
    if passes_end:
        return (39, len(slots), 0), table
    return None, table
