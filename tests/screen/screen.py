"""The screen: code, a relocation list and a lent table in; yes, or a refusal 30 to 39.

    python3 screen.py CODE [NUMBER ...]    CODE in hexadecimal, then the relocation list's u32 numbers

prints the answer, then the table's entries in hexadecimal (one for each slot, aaaa where nothing was written).
"""

import sys

import paths
import shape
from insn import SLOT, WIDE, form_of, slots_of

LONGEST_CODE = 1_048_576
UNTOUCHED = 0xAAAA


def relocation_fault(slots, relocations):
    """The first u32 index where the list is not the wide loads' byte offsets, each with any map number."""
    starts = shape.starts_of(slots)
    offsets = [slot * SLOT for slot, insn in enumerate(slots) if starts[slot] and form_of(insn.code) == WIDE]
    for index, number in enumerate(relocations):
        if index == 2 * len(offsets):
            return index
        if index % 2 == 0 and number != offsets[index // 2]:
            return index
    if len(relocations) < 2 * len(offsets):
        return len(relocations)
    return None


def screen(code, relocations, table):
    """The refusal as (number, place, value), or nothing for yes. The table's front is filled for yes, 38 and 39."""
    if len(code) == 0 or len(code) % SLOT != 0 or len(code) > LONGEST_CODE:
        return 30, 0, 0
    count = len(code) // SLOT
    if len(table) < count:
        return 31, 0, count
    slots = slots_of(code)
    fault = shape.first_fault(slots)
    if fault is not None:
        return (*fault, 0)
    index = relocation_fault(slots, relocations)
    if index is not None:
        return 37, index, 0
    refusal, table[:count] = paths.judged(slots)
    return refusal


def answer_text(refusal):
    return "yes" if refusal is None else "refused {} at {} value {}".format(*refusal)


def main():
    if len(sys.argv) < 2 or sys.argv[1] in ("-h", "--help"):
        print(__doc__)
        return
    code = bytes.fromhex(sys.argv[1])
    table = [UNTOUCHED] * (len(code) // SLOT)
    print(answer_text(screen(code, [int(number, 0) for number in sys.argv[2:]], table)))
    print(" ".join(f"{entry:04x}" for entry in table))


if __name__ == "__main__":
    main()
