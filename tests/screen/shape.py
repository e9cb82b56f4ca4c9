"""The shape rules 32 to 36, each judged on one instruction, lowest slot first, then lowest number."""

from insn import (
    CALL, IMMEDIATE_ALU, JEQ, JNE, JUMPS, LDX, LOADS_AND_STORES, REGISTER_ALU, STX, WIDE, WIDE_CODE, Insn, form_of,
    width_of)

HELPERS = (1, 2, 5, 14, 15, 35, 113, 114, 115, 131, 132)
FRAME_POINTER = 10
FRAME = 512

# The fields that each form uses. The wide form's source and immediate belong to rule 32.
USES_DST = {WIDE, *LOADS_AND_STORES, *REGISTER_ALU, *IMMEDIATE_ALU, JEQ, JNE}
USES_SRC = {*LOADS_AND_STORES, *REGISTER_ALU}
USES_OFF = {*LOADS_AND_STORES, *JUMPS}
USES_IMM = {*IMMEDIATE_ALU, JEQ, JNE, CALL}

WRITES_DST = {WIDE, LDX, *REGISTER_ALU, *IMMEDIATE_ALU}
NOTHING = Insn(0)


def starts_of(slots):
    """Where instructions start: slot 0, then two slots on after a first byte 0x18, else one; faulty code too."""
    starts = bytearray(len(slots))
    slot = 0
    while slot < len(slots):
        starts[slot] = 1
        slot += 2 if slots[slot].code == WIDE_CODE else 1
    return starts


def breaks_32(slots, slot):
    insn = slots[slot]
    form = form_of(insn.code)
    if form is None:
        return True
    if form == CALL:
        return insn.imm not in HELPERS
    if form == WIDE:
        cut = slot + 1 == len(slots)
        return cut or insn.src != 1 or insn.imm != 0 or slots[slot + 1] != NOTHING
    return False


def breaks_33(insn, form):
    if form in USES_DST and insn.dst > FRAME_POINTER:
        return True
    if form in USES_SRC and insn.src > FRAME_POINTER:
        return True
    return form in WRITES_DST and insn.dst == FRAME_POINTER


def breaks_34(insn, form):
    if form not in USES_DST and insn.dst != 0:
        return True
    if form not in USES_SRC and form != WIDE and insn.src != 0:
        return True
    if form not in USES_OFF and insn.off != 0:
        return True
    return form not in USES_IMM and form != WIDE and insn.imm != 0


def breaks_35(insn, form):
    """An access through R10 of w bytes at offset o, unless -512 <= o, o + w <= 0 and w divides o."""
    through_frame = (form == LDX and insn.src == FRAME_POINTER) or (form == STX and insn.dst == FRAME_POINTER)
    if not through_frame:
        return False
    width = width_of(insn.code)
    return not (-FRAME <= insn.off and insn.off + width <= 0 and insn.off % width == 0)


def breaks_36(insn, form, slot, starts):
    """A jump to no instruction start; the slot count is none."""
    if form not in JUMPS:
        return False
    target = slot + 1 + insn.off
    return not (0 <= target < len(starts) and starts[target])


def fault_of(slots, slot, starts):
    """The number of the first rule that the instruction at `slot` breaks, or nothing."""
    if breaks_32(slots, slot):
        return 32
    insn = slots[slot]
    form = form_of(insn.code)
    if breaks_33(insn, form):
        return 33
    if breaks_34(insn, form):
        return 34
    if breaks_35(insn, form):
        return 35
    if breaks_36(insn, form, slot, starts):
        return 36
    return None


def first_fault(slots):
    """(number, slot) of the lowest slot at fault, or nothing."""
    starts = starts_of(slots)
    for slot in range(len(slots)):
        if starts[slot]:
            number = fault_of(slots, slot, starts)
            if number is not None:
                return number, slot
    return None
