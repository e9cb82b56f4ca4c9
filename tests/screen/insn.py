"""One instruction slot: its fields, and the form that its first byte says, by the fields of RFC 9669."""

import struct
from dataclasses import dataclass
from functools import lru_cache

SLOT = 8
WIDE_CODE = 0x18

WIDE, LDX, STX, ALU_IMM, ALU_REG, MOV_IMM, MOV_REG, JA, JEQ, JNE, CALL, EXIT = (
    "wide", "ldx", "stx", "alu imm", "alu reg", "mov imm", "mov reg", "ja", "jeq", "jne", "call", "exit")

LOADS_AND_STORES = (LDX, STX)
# A MOV is an ALU instruction, told apart only because it does not read its destination.
REGISTER_ALU = (ALU_REG, MOV_REG)
IMMEDIATE_ALU = (ALU_IMM, MOV_IMM)
JUMPS = (JA, JEQ, JNE)

CLASS_LD, CLASS_LDX, CLASS_STX, CLASS_JMP, CLASS_ALU64 = 0, 1, 3, 5, 7
MODE_IMM, MODE_MEM = 0, 3
SIZES = {0x00: 4, 0x08: 2, 0x10: 1, 0x18: 8}

# ADD SUB MUL DIV LSH RSH MOD; MOV is b.
OPERATIONS = (0x0, 0x1, 0x2, 0x3, 0x6, 0x7, 0x9)
MOV = 0xB
JUMP_OPERATIONS = {0x0: JA, 0x1: JEQ, 0x5: JNE, 0x8: CALL, 0x9: EXIT}


@dataclass(frozen=True)
class Insn:
    code: int
    dst: int = 0
    src: int = 0
    off: int = 0
    imm: int = 0


@lru_cache(maxsize=None)
def decode(slot):
    """Eight bytes to fields: opcode; destination low, source high; offset; imm."""
    code, registers, off, imm = struct.unpack("<BBhi", slot)
    return Insn(code, registers & 15, registers >> 4, off, imm)


def encode(insn):
    return struct.pack("<BBhi", insn.code, insn.dst | insn.src << 4, insn.off, insn.imm)


@lru_cache(maxsize=None)
def form_of(code):
    """The form of an opcode byte, or nothing where it is not one of the thirty."""
    kind, size, mode = code & 7, SIZES[code & 0x18], code >> 5
    from_register, operation = bool(code & 8), code >> 4
    if kind == CLASS_LD:
        return WIDE if mode == MODE_IMM and size == 8 else None
    if kind == CLASS_LDX:
        return LDX if mode == MODE_MEM else None
    if kind == CLASS_STX:
        return STX if mode == MODE_MEM else None
    if kind == CLASS_ALU64:
        if operation == MOV:
            return MOV_REG if from_register else MOV_IMM
        if operation in OPERATIONS:
            return ALU_REG if from_register else ALU_IMM
    if kind == CLASS_JMP and not from_register:
        return JUMP_OPERATIONS.get(operation)
    return None


def width_of(code):
    """The bytes that a load or a store moves."""
    return SIZES[code & 0x18]


def slots_of(code):
    """A code's slots as fields; its length is a multiple of eight."""
    return [decode(code[at:at + SLOT]) for at in range(0, len(code), SLOT)]
