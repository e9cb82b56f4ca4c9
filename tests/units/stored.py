"""One case of the stored list of units: a unit, plain or run-length coded, and a map number to ask for."""

import struct
from dataclasses import dataclass

PLAIN, REPEATED = 0, 1


@dataclass(frozen=True)
class Case:
    """A unit as it stands."""
    title: str
    unit: bytes
    asked: int = 0

    def coded(self):
        return struct.pack("<BII", PLAIN, len(self.unit), self.asked) + self.unit


@dataclass(frozen=True)
class RepeatedCase:
    """A long unit: a prefix, then a pattern that is repeated until `total` bytes are reached, cut at the end."""
    title: str
    total: int
    prefix: bytes
    pattern: bytes
    asked: int = 0

    @property
    def unit(self):
        rest = self.total - len(self.prefix)
        return self.prefix + (self.pattern * (rest // len(self.pattern) + 1))[:rest]

    def coded(self):
        return (
            struct.pack("<BIII", REPEATED, self.total, self.asked, len(self.prefix)) + self.prefix
            + struct.pack("<I", len(self.pattern)) + self.pattern)


def decoded(stored):
    """The (unit, asked map) pairs of a stored list."""
    at = 0

    def number():
        nonlocal at
        at += 4
        return struct.unpack_from("<I", stored, at - 4)[0]

    def some_bytes(length):
        nonlocal at
        at += length
        return stored[at - length:at]

    while at < len(stored):
        how = some_bytes(1)[0]
        total, asked = number(), number()
        if how == PLAIN:
            yield some_bytes(total), asked
        else:
            unit = bytearray(some_bytes(number()))
            pattern = some_bytes(number())
            while len(unit) < total:
                unit += pattern
            yield bytes(unit[:total]), asked
