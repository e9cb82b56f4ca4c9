"""A code of full size, put together from runs of repeated slots."""

from asm import ja
from insn import SLOT
from stored import Case, Listed

SLOTS = 131_072

# The most that a jump's signed 16-bit distance reaches, in slots from the slot after the jump.
FORWARD = 32_767
BACKWARD = -32_768


class LongCode:
    def __init__(self):
        self.runs = []
        self.slots = 0

    def add(self, pattern, times=1):
        if times > 0 and pattern:
            self.runs.append((times, pattern))
            self.slots += times * len(pattern) // SLOT
        return self

    def fill(self, pattern, until):
        """The pattern as often as it fits before slot `until`, then jumps to the next slot."""
        times, rest = divmod(until - self.slots, len(pattern) // SLOT)
        return self.add(pattern, times).add(ja(0), rest)

    def jump(self, instruction, target):
        """A jump to a slot; `instruction` makes one from its distance."""
        return self.add(instruction(target - self.slots - 1))

    def case(self, title, relocations=Listed(()), table=SLOTS):
        return Case(title, tuple(self.runs), relocations, table)
