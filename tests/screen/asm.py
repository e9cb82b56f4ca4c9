"""Instructions as bytes. Nothing is checked: a faulty instruction is made by giving a field a forbidden value."""

from insn import Insn, encode

ADD, SUB, MUL, DIV, LSH, RSH, MOD = 0x07, 0x17, 0x27, 0x37, 0x67, 0x77, 0x97
ALU_CODES = (ADD, SUB, MUL, DIV, LSH, RSH, MOD)
FROM_REGISTER = 0x08
MOV_IMM, MOV_REG = 0xB7, 0xBF
LDX_CODES = {4: 0x61, 2: 0x69, 1: 0x71, 8: 0x79}
STX_CODES = {4: 0x63, 2: 0x6B, 1: 0x73, 8: 0x7B}
JA, JEQ, JNE, CALL, EXIT, WIDE = 0x05, 0x15, 0x55, 0x85, 0x95, 0x18

# The thirty opcodes of insn.rs, listed again rather than computed: selftest.py compares them with insn.py.
OPCODES = (
    WIDE, *LDX_CODES.values(), *STX_CODES.values(), *ALU_CODES, *(code | FROM_REGISTER for code in ALU_CODES),
    MOV_IMM, MOV_REG, JA, JEQ, JNE, CALL, EXIT)


def mov(dst, imm):
    return encode(Insn(MOV_IMM, dst, imm=imm))


def copy(dst, src):
    return encode(Insn(MOV_REG, dst, src))


def alu(code, dst, imm):
    return encode(Insn(code, dst, imm=imm))


def alu_reg(code, dst, src):
    return encode(Insn(code | FROM_REGISTER, dst, src))


def ldx(width, dst, src, off):
    return encode(Insn(LDX_CODES[width], dst, src, off))


def stx(width, dst, src, off):
    return encode(Insn(STX_CODES[width], dst, src, off))


def ja(off):
    return encode(Insn(JA, off=off))


def jeq(dst, off, imm=0):
    return encode(Insn(JEQ, dst, off=off, imm=imm))


def jne(dst, off, imm=0):
    return encode(Insn(JNE, dst, off=off, imm=imm))


def call(helper):
    return encode(Insn(CALL, imm=helper))


def exit_():
    return encode(Insn(EXIT))


def wide(dst):
    """A map load: two slots, the second all zero."""
    return encode(Insn(WIDE, dst, 1)) + bytes(8)


def sample(code):
    """A well-formed instruction of this opcode, with a field set wherever the opcode uses one."""
    if code == WIDE:
        return Insn(code, 3, 1)
    if code in LDX_CODES.values():
        return Insn(code, 2, 10, -16)
    if code in STX_CODES.values():
        return Insn(code, 10, 2, -16)
    if code in (JEQ, JNE):
        return Insn(code, 4, imm=5)
    if code == CALL:
        return Insn(code, imm=1)
    if code in (JA, EXIT):
        return Insn(code)
    if code in (MOV_REG, *(alu | FROM_REGISTER for alu in ALU_CODES)):
        return Insn(code, 7, 8)
    return Insn(code, 7, imm=9)


def sample_bytes(code, **changed):
    """The sample with some fields changed; a wide one with its second slot."""
    insn = sample(code)
    fields = {**vars(insn), **changed}
    return encode(Insn(**fields)) + (bytes(8) if code == WIDE else b"")


# Makes every register readable, in nine slots.
ALL_READABLE = b"".join(mov(register, 0) for register in (0, 2, 3, 4, 5, 6, 7, 8, 9))
RETURN_0 = mov(0, 0) + exit_()
