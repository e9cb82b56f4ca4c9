"""Writes the stored list of codes with the screen's answers: `stdin` and `stdout` in the folder that is named.

    python3 make_codes.py FOLDER    write the list (some minutes: many codes have 131,072 slots)
    python3 make_codes.py --list    print each case's number, title and answer

The answers come from screen.py. The formats of both files are stated in README.md beside this script.
"""

import struct
import sys
from collections import Counter
from pathlib import Path

import cases_known
import cases_long_jumps
import cases_long_loads
import cases_long_loops
import cases_paths
import cases_random
import cases_relocations
import cases_shape
from screen import UNTOUCHED, answer_text, screen

SUBJECTS = (
    cases_known, cases_shape, cases_relocations, cases_paths, cases_random,
    cases_long_jumps, cases_long_loads, cases_long_loops)

# Longer tables are stored by their hash.
LONGEST_SHOWN = 40
FNV_OFFSET, FNV_PRIME = 0xCBF29CE484222325, 0x100000001B3


def cases():
    for subject in SUBJECTS:
        yield from subject.cases()


def fnv1a(data):
    """The 64-bit FNV-1a hash."""
    result = FNV_OFFSET
    for byte in data:
        result = (result ^ byte) * FNV_PRIME % 2**64
    return result


def table_text(table):
    if len(table) <= LONGEST_SHOWN:
        return " ".join(f"{entry:04x}" for entry in table)
    return f"fnv1a {fnv1a(struct.pack(f'<{len(table)}H', *table)):016x}"


def answer_lines(case):
    """The answer, and the table after the call."""
    table = [UNTOUCHED] * case.table
    refusal = screen(case.code, case.relocations.numbers, table)
    return answer_text(refusal), table_text(table)


def kind_of(answer):
    """`yes`, or the refusal's number."""
    return answer if answer == "yes" else " ".join(answer.split()[:2])


def write_list(folder):
    folder.mkdir(parents=True, exist_ok=True)
    counts = Counter()
    with (folder / "stdin").open("wb") as stored, (folder / "stdout").open("w", newline="\n") as answers:
        for case in cases():
            first, second = answer_lines(case)
            stored.write(case.coded())
            answers.write(f"{first}\n{second}\n")
            counts[kind_of(first)] += 1
    print(f"{sum(counts.values())} cases:", ", ".join(f"{kind}: {count}" for kind, count in sorted(counts.items())))


def print_list():
    for number, case in enumerate(cases()):
        print(f"{number}: {case.title}: {answer_lines(case)[0]}")


def main():
    if len(sys.argv) != 2 or sys.argv[1] in ("-h", "--help"):
        print(__doc__)
    elif sys.argv[1] == "--list":
        print_list()
    else:
        write_list(Path(sys.argv[1]))


if __name__ == "__main__":
    main()
