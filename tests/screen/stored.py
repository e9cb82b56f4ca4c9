"""One case of the stored list of codes: the code run-length coded, a relocation list, a table's length."""

import struct
from dataclasses import dataclass

from insn import SLOT, WIDE_CODE

GENERATED = 1 << 31


@dataclass(frozen=True)
class Pairs:
    """A relocation list in short: `count` pairs, pair i is (first + i * step, i)."""
    count: int
    first: int
    step: int

    @property
    def numbers(self):
        return [number for i in range(self.count) for number in (self.first + i * self.step, i)]

    def coded(self):
        return struct.pack("<III", GENERATED | self.count, self.first, self.step)


@dataclass(frozen=True)
class Listed:
    """A relocation list as it stands."""
    numbers: tuple

    def coded(self):
        return struct.pack(f"<I{len(self.numbers)}I", len(self.numbers), *self.numbers)


@dataclass(frozen=True)
class Case:
    """`runs` holds (times, slots' bytes); `extra` holds up to seven bytes behind the last slot."""
    title: str
    runs: tuple
    relocations: object
    table: int
    extra: bytes = b""

    @property
    def code(self):
        return b"".join(pattern * times for times, pattern in self.runs) + self.extra

    def coded(self):
        result = struct.pack("<I", len(self.runs))
        for times, pattern in self.runs:
            result += struct.pack("<II", times, len(pattern) // SLOT) + pattern
        result += struct.pack("<I", len(self.extra)) + self.extra
        return result + self.relocations.coded() + struct.pack("<I", self.table)


def wide_offsets(code):
    """The byte offsets where a wide load starts."""
    at = 0
    while at < len(code):
        if code[at] == WIDE_CODE:
            yield at
            at += SLOT
        at += SLOT


def right_relocations(code):
    return Listed(tuple(number for i, at in enumerate(wide_offsets(code)) for number in (at, i)))


def small(title, code, relocations=None, table=None):
    """A case whose code is given slot by slot: by default with the right relocations and a table that just fits."""
    whole = len(code) - len(code) % SLOT
    runs = ((1, code[:whole]),) if whole else ()
    if relocations is None:
        relocations = right_relocations(code)
    elif not isinstance(relocations, (Listed, Pairs)):
        relocations = Listed(tuple(relocations))
    table = whole // SLOT if table is None else table
    return Case(title, runs, relocations, table, code[whole:])


def decoded(stored):
    """The (code, relocation numbers, table length) of each case in a stored list."""
    at = 0

    def number():
        nonlocal at
        at += 4
        return struct.unpack_from("<I", stored, at - 4)[0]

    def some_bytes(length):
        nonlocal at
        at += length
        return stored[at - length:at]

    while at < len(stored):
        code = b""
        for _ in range(number()):
            times, slots = number(), number()
            code += some_bytes(slots * SLOT) * times
        code += some_bytes(number())
        count = number()
        if count & GENERATED:
            relocations = Pairs(count ^ GENERATED, number(), number()).numbers
        else:
            relocations = [number() for _ in range(count)]
        yield code, relocations, number()
