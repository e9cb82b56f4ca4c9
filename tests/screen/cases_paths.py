"""Small codes for 38, 39 and the table: every opcode's reads, calls, joins, loops, what comes after a fault."""

from asm import (
    ADD, ALL_READABLE, FROM_REGISTER, JEQ, JNE, LDX_CODES, MOV_REG, OPCODES, RETURN_0, STX_CODES, ALU_CODES, alu,
    alu_reg, call, copy, exit_, ja, jeq, jne, ldx, mov, sample_bytes, stx, wide)
from insn import Insn, encode
from shape import HELPERS
from stored import small

REGISTERS = range(10)
TWO_REGISTERS = (*LDX_CODES.values(), *STX_CODES.values(), MOV_REG, *(code | FROM_REGISTER for code in ALU_CODES))
ONE_REGISTER = (*ALU_CODES, JEQ, JNE)


def reads_of_every_opcode():
    """At the start only R1 and R10 are readable."""
    for code in OPCODES:
        yield small(f"{code:#04x} at the start", sample_bytes(code) + RETURN_0)
    for code in TWO_REGISTERS:
        off = -8 if code in LDX_CODES.values() or code in STX_CODES.values() else 0
        for dst, src in ((2, 3), (3, 2), (1, 2), (2, 1), (1, 1), (4, 4), (0, 9), (9, 0), (2, 10), (1, 10)):
            yield small(f"{code:#04x} dst {dst} src {src}", encode(Insn(code, dst, src, off)) + RETURN_0)
    for code in ONE_REGISTER:
        for dst in (0, 1, 2, 9):
            yield small(f"{code:#04x} dst {dst}", encode(Insn(code, dst, imm=1)) + RETURN_0)
    for code in (JEQ, JNE):
        yield small(f"{code:#04x} dst 10", encode(Insn(code, 10, imm=1)) + RETURN_0)


def start():
    for register in range(11):
        yield small(f"read of R{register} at the start", copy(6, register) + RETURN_0)
        yield small(f"read of R{register} after all were written", ALL_READABLE + copy(6, register) + RETURN_0)


def writes():
    """Each form that writes makes its destination readable, also after it read it unreadable."""
    for write, what in (
            (mov(7, 1), "mov"), (copy(7, 1), "copy"), (ldx(4, 7, 1, 0), "load"), (alu(ADD, 7, 1), "add"),
            (alu_reg(ADD, 7, 1), "add register"), (alu_reg(ADD, 7, 7), "add itself"), (wide(7), "map load"),
            (stx(8, 7, 1, 0), "store"), (jeq(7, 0), "jump"), (call(5), "call")):
        yield small(f"{what}, then a read of R7", write + copy(8, 7) + RETURN_0)
        yield small(f"R7 written, {what}, then a read of R7", mov(7, 0) + write + copy(8, 7) + RETURN_0)


def calls():
    for helper in HELPERS:
        for last in range(6):
            given = b"".join(mov(register, 0) for register in range(1, last + 1))
            yield small(f"helper {helper} with R1 to R{last}", call(14) + given + call(helper) + exit_())
        for missing in range(1, 6):
            given = b"".join(mov(register, 0) for register in range(1, 6) if register != missing)
            yield small(f"helper {helper} without R{missing}", call(14) + given + call(helper) + exit_())
        for register in range(11):
            yield small(f"read of R{register} after helper {helper}",
                        ALL_READABLE + call(helper) + copy(6, register) + RETURN_0)
        yield small(f"helper {helper} at the start", call(helper) + exit_())
        yield small(f"helper {helper} twice", ALL_READABLE + call(helper) + call(helper) + exit_())


def ends():
    for code in OPCODES:
        yield small(f"{code:#04x} as the only instruction", sample_bytes(code))
        yield small(f"{code:#04x} last, with R0 to R5 unreadable", copy(6, 1) + call(5) + sample_bytes(code))
    yield small("the last slot is not reached", RETURN_0 + copy(6, 1))
    yield small("the last slot is reached by a jump alone", jeq(1, 2) + RETURN_0 + mov(0, 0))
    yield small("a conditional jump in the last slot", mov(0, 0) + jeq(0, -2))
    yield small("a map load in the last slots", copy(6, 1) + wide(1))
    yield small("a loop without an exit", mov(0, 0) + ja(-2))
    yield small("a fault in a part that is not reached", RETURN_0 + copy(3, 2) + exit_())
    yield small("38 at the last slot before 39", jeq(1, 1) + mov(2, 0) + copy(3, 2))
    yield small("39 on one side only", jeq(1, 2) + RETURN_0 + copy(6, 1))


def lowest_register():
    """The value is the lowest register that is unreadable on some path, not on one path."""
    # One side writes R2, the other R3; the store needs both.
    both = jeq(1, 2) + mov(2, 0) + ja(1) + mov(3, 0)
    yield small("store of R3 at R2, each written on one side", both + stx(8, 2, 3, 0) + RETURN_0)
    yield small("store of R2 at R3, each written on one side", both + stx(8, 3, 2, 0) + RETURN_0)
    yield small("call that needs R1 to R4, R2 and R3 on one side each", both + mov(4, 0) + call(2) + exit_())
    yield small("call that needs R1 to R4, all but R1 missing", call(2) + exit_())
    yield small("call that needs R1 to R4, only R4 missing", mov(2, 0) + mov(3, 0) + call(2) + exit_())
    for register in REGISTERS:
        yield small(f"add R{register} to R9", mov(9, 0) + alu_reg(ADD, 9, register) + RETURN_0)
        yield small(f"add R9 to R{register}", alu_reg(ADD, register, 9) + RETURN_0)


def lowest_place():
    yield small("faults on both sides, the jumped side lower in path order", jne(1, 2) + copy(6, 2) + exit_() + exit_())
    yield small("fault behind a backward jump", ja(2) + copy(6, 3) + exit_() + copy(7, 2) + ja(-4))
    yield small("two faults in a row", copy(6, 3) + copy(7, 2) + RETURN_0)
    yield small("a fault that a later path meets at a lower slot",
                mov(0, 0) + jeq(0, 2) + copy(6, 1) + exit_() + call(5) + jeq(0, -4) + exit_())


def after_a_fault():
    """A path goes on: what was read stays unreadable unless it is written."""
    yield small("read twice", copy(6, 2) + copy(7, 2) + RETURN_0)
    yield small("read, written, read", copy(6, 2) + mov(2, 0) + copy(7, 2) + RETURN_0)
    yield small("add to an unreadable register, then a read", alu(ADD, 2, 1) + copy(7, 2) + RETURN_0)
    yield small("copy of an unreadable register, then a read", copy(6, 2) + copy(7, 6) + RETURN_0)
    yield small("call without arguments, then the end", call(2) + copy(6, 0))
    yield small("exit without R0, then more", exit_() + copy(6, 2) + exit_())
    yield small("jump on an unreadable register", jeq(2, 1) + mov(3, 0) + mov(0, 0) + exit_())


def joins():
    arms = {"nothing": b"", "R0": mov(0, 0), "R0 and R2": mov(0, 0) + mov(2, 0), "a call": call(5)}
    for left, one in arms.items():
        for right, other in arms.items():
            slots_one, slots_other = len(one) // 8, len(other) // 8
            code = jeq(1, slots_one + 1) + one + ja(slots_other) + other
            yield small(f"{left} or {right}, then exit", code + exit_())
            yield small(f"{left} or {right}, then a read of R1", code + copy(6, 1) + RETURN_0)
            yield small(f"{left} or {right}, then a read of R2", code + copy(6, 2) + RETURN_0)


def skipped_writes():
    """R2, R3 and R4 are written in turn; before each write a conditional jump may lead behind them all."""
    for ways in range(8):
        first, second, third = 6 if ways & 1 else 0, 4 if ways & 2 else 0, 2 if ways & 4 else 0
        code = (jeq(1, first) + mov(2, 0) + jne(1, second) + mov(3, 0) + jeq(1, third) + mov(4, 0)
                + ja(0) + mov(0, 0))
        for read in (2, 3, 4):
            yield small(f"ways past the writes {ways:03b}, then a read of R{read}", code + copy(6, read) + exit_())


def loops():
    for register in (1, 2, 5, 6, 9):
        body = copy(8, register)
        yield small(f"R{register} read, then killed by a call in the loop",
                    ALL_READABLE + body + call(5) + jeq(0, -3) + exit_())
        yield small(f"R{register} read, killed and written again in the loop",
                    ALL_READABLE + body + call(5) + mov(register, 0) + jeq(0, -4) + exit_())
        yield small(f"R{register} written in the loop, read at its top",
                    mov(0, 0) + ja(1) + body + mov(register, 0) + jeq(0, -3) + exit_())
        yield small(f"R{register} killed in an inner loop, read in the outer",
                    ALL_READABLE + body + mov(0, 1) + call(5) + jeq(0, -3) + jne(0, -5) + exit_())
    yield small("a loop that is entered in its middle", jeq(1, 1) + mov(2, 0) + copy(3, 1) + jeq(1, -3) + RETURN_0)
    yield small("each slot jumps to the one before", ja(3) + RETURN_0 + ja(-3) + ja(-2))
    yield small("a zigzag", ja(3) + ja(3) + ja(3) + RETURN_0[:8] + ja(-4) + ja(-4) + exit_())
    yield small("conditional jumps to the next slot", jeq(1, 0) * 6 + RETURN_0)
    yield small("conditional jumps to the slot before", mov(0, 0) + jeq(0, -2) * 6 + exit_())


def cases():
    for subject in (
            reads_of_every_opcode, start, writes, calls, ends, lowest_register, lowest_place, after_a_fault, joins,
            skipped_writes, loops):
        yield from subject()
