"""Relocation lists right and wrong in every way: refusal 37."""

from asm import RETURN_0, copy, exit_, mov, wide
from stored import Pairs, small

# Map loads at slots 0, 3 and 5: byte offsets 0, 24 and 40.
CODE = wide(1) + copy(6, 1) + wide(2) + wide(3) + RETURN_0
RIGHT = (0, 7, 24, 8, 40, 9)


def wrong_lists():
    yield "right", RIGHT
    yield "right, all map numbers 0", (0, 0, 24, 0, 40, 0)
    yield "right, map numbers as large as can be", (0, 2**32 - 1, 24, 2**31, 40, 2**32 - 1)
    for length in range(len(RIGHT)):
        yield f"the first {length} numbers", RIGHT[:length]
    for missing in range(len(RIGHT)):
        yield f"number {missing} missing", RIGHT[:missing] + RIGHT[missing + 1:]
    for pair in (0, 2, 4):
        yield f"pair {pair // 2} missing", RIGHT[:pair] + RIGHT[pair + 2:]
        yield f"pair {pair // 2} twice", RIGHT[:pair + 2] + RIGHT[pair:]
    for index in range(len(RIGHT)):
        for off_by in (1, -1, 8, 2**31):
            changed = list(RIGHT)
            changed[index] = (changed[index] + off_by) % 2**32
            yield f"number {index} off by {off_by}", tuple(changed)
    yield "slots instead of bytes", (0, 7, 3, 8, 5, 9)
    yield "second slots", (8, 7, 32, 8, 48, 9)
    yield "descending", (40, 9, 24, 8, 0, 7)
    yield "two swapped", (0, 7, 40, 8, 24, 9)
    yield "map number first", (7, 0, 8, 24, 9, 40)
    yield "one number too many", (*RIGHT, 0)
    yield "one pair too many", (*RIGHT, 56, 0)
    yield "the last pair again", (*RIGHT, 40, 9)
    yield "two pairs too many", (*RIGHT, 56, 0, 64, 0)


def lists_for_no_loads():
    for numbers in ((), (0,), (0, 0), (8, 0), (0, 0, 0)):
        yield small(f"no map loads, list {numbers}", RETURN_0, numbers)


def lists_for_one_load():
    code = copy(6, 1) + wide(1) + RETURN_0
    for numbers in ((), (8,), (8, 0), (0, 0), (1, 0), (16, 0), (8, 0, 8), (8, 0, 24, 0), (0, 8), (8, 8), (9,)):
        yield small(f"one map load at 8, list {numbers}", code, numbers)


def generated_lists():
    """Loads at every second slot, the list given as generated pairs."""
    code = wide(1) * 10 + RETURN_0
    for count, first, step in (
            (10, 0, 16), (9, 0, 16), (11, 0, 16), (10, 16, 16), (10, 0, 8), (10, 0, 15), (10, 1, 16), (0, 0, 16)):
        yield small(f"ten map loads, {count} pairs from {first} by {step}", code, Pairs(count, first, step))


def unreached_loads():
    """A load needs its relocation although no path comes to it."""
    code = mov(0, 0) + exit_() + wide(5)
    for numbers in ((), (16, 0), (16,), (0, 0)):
        yield small(f"unreached map load, list {numbers}", code, numbers)


def cases():
    for title, numbers in wrong_lists():
        yield small(f"three map loads, list {title}", CODE, numbers)
    yield from lists_for_no_loads()
    yield from lists_for_one_load()
    yield from generated_lists()
    yield from unreached_loads()
