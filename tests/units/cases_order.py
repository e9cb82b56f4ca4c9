"""Cut units, wrong kinds, trailing bytes, and which refusal is named first: 2 before 3 or 4 before 5."""

from layout import (
    BLOCK, HEAD, INSTRUCTION, MAP, TERMINATOR, block, branch, head, head_payload, immediate, instruction, jump,
    map_, record, return_, unit, variable)
from opcodes import BINARY, LOAD_KEY
from cases_healthy import SEEN
from stored import Case

ZERO = return_(immediate(0))

# The records of a unit in file order, by the name of the position where each is due.
POSITIONS = {
    "head": head(2, 2),
    "first map": map_(b"a"),
    "second map": map_(b"bc"),
    "first block": block(1),
    "first instruction": instruction(BINARY, [variable(1), immediate(2)], result=3, small=1),
    "second instruction": instruction(LOAD_KEY, [variable(3)], result=4),
    "first terminator": branch(variable(4), 1, 2),
    "second block": block(2),
    "second terminator": ZERO,
}

# A record of each kind whose payload keeps the rules, and two kinds that do not exist.
OF_KIND = {
    0: record(0, b""),
    HEAD: head(2, 2),
    MAP: map_(b"zz"),
    BLOCK: block(7),
    INSTRUCTION: instruction(LOAD_KEY, [variable(1)]),
    TERMINATOR: jump(1),
    6: record(6, bytes(8)),
}


def parts_before(position):
    before = b""
    for name, part in POSITIONS.items():
        if name == position:
            return before
        before += part
    return before


def replaced(position, part):
    return b"".join(part if name == position else whole for name, whole in POSITIONS.items())


def cuts():
    """A small unit cut at each byte: the record that is cut is named, by 2."""
    for length in range(len(SEEN)):
        yield Case(f"P2 cut after {length} bytes", SEEN[:length])


def lengths_past_the_end():
    """At each position the file ends with a record that says it is one byte longer, or much longer, than it is."""
    for position, part in POSITIONS.items():
        kind = part[2]
        for more in (1, 256, 65535 - (len(part) - 4)):
            length = len(part) - 4 + more
            yield Case(f"the file ends at the {position}, its length {more} too long",
                       parts_before(position) + record(kind, part[4:], length))


def kinds():
    for position, part in POSITIONS.items():
        for kind, other in OF_KIND.items():
            yield Case(f"kind {kind} due at the {position}", replaced(position, other), 1)
        # The right low byte under a high byte that is not zero.
        yield Case(f"kind {part[2] + 256} due at the {position}", replaced(position, record(part[2] + 256, part[4:])))


def missing_and_doubled():
    for position, part in POSITIONS.items():
        yield Case(f"no {position}", replaced(position, b""))
        yield Case(f"the {position} twice", replaced(position, part + part))


def trailing():
    whole = b"".join(POSITIONS.values())
    for more in range(1, 6):
        yield Case(f"{more} trailing zero bytes", whole + bytes(more))
    yield Case("trailing bytes that say a length past the end", whole + b"\xff\xff\x03\x00")
    yield Case("the unit twice", whole + whole)
    for kind, other in OF_KIND.items():
        yield Case(f"a trailing record of kind {kind}", whole + other)
    yield Case("a byte after an empty unit", head() + b"\x00")
    yield Case("a byte after the last map", unit([b"a"]) + b"\x01")


def first_by_number():
    """One record that breaks two rules: the lower number is named, save that 3 stands for 4 and 5 in a head."""
    yield Case("head of a wrong kind, cut", record(MAP, b"")[:3])
    yield Case("head of a wrong kind, length past the end", record(MAP, bytes(7), 8))
    yield Case("head of a bad edition, length past the end", record(HEAD, head_payload(0, 0, 9), 9))
    yield Case("head of a wrong kind and a wrong length", record(BLOCK, bytes(3)))
    yield Case("map of a wrong kind and too long", head(1) + record(BLOCK, bytes(65)))
    yield Case("map of a wrong kind, too long and past the end", head(1) + record(BLOCK, bytes(65), 66))
    yield Case("map too long and past the end", head(1) + record(MAP, bytes(65), 66))
    yield Case("block of a wrong kind and a wrong length", head(0, 1) + record(MAP, bytes(5)) + ZERO)
    yield Case("block of a wrong length and past the end", head(0, 1) + record(BLOCK, bytes(5), 6))
    yield Case("instruction of a wrong kind and no bytes", head(0, 1) + block(1) + record(6, b"") + ZERO)
    yield Case("instruction of no bytes", head(0, 1) + block(1) + record(INSTRUCTION, b"") + ZERO)
    yield Case("terminator of a bad form and past the end", head(0, 1) + block(1) + record(TERMINATOR, b"\x09", 2))
    yield Case("block without a terminator, then a block", head(0, 2) + block(1) + block(2) + ZERO)
    yield Case("block without a terminator at the end", head(0, 1) + block(1))
    yield Case("map where none is due", head(0, 1) + map_(b"a") + block(1) + ZERO)
    yield Case("block where a map is due", head(1, 1) + block(1) + ZERO)
    yield Case("instruction after the terminator", head(0, 1) + block(1) + ZERO + instruction(LOAD_KEY))
    yield Case("all zero bytes", bytes(64))
    yield Case("all 255 bytes", b"\xff" * 64)
    yield Case("a zero record and no more", bytes(4))


def cases():
    yield from cuts()
    yield from lengths_past_the_end()
    yield from kinds()
    yield from missing_and_doubled()
    yield from trailing()
    yield from first_by_number()
