"""Writes the stored list of units with their answers: `stdin` and `stdout` in the folder that is named.

    python3 make_units.py FOLDER    write the list
    python3 make_units.py --list    print each case's number, title and answer

The answers come from unitfile.py. The formats of both files are stated in README.md beside this script.
"""

import cases_damaged
import cases_healthy
import cases_limits
import cases_order
import cases_random
import storedlist
from refusal import Refusal
from unitfile import map_name, read_unit

SUBJECTS = (cases_healthy, cases_damaged, cases_order, cases_limits, cases_random)


def cases():
    for subject in SUBJECTS:
        yield from subject.cases()


def reading_line(unit):
    try:
        head = read_unit(unit).head
    except Refusal as refusal:
        return str(refusal)
    return f"good maps {head.maps} blocks {head.blocks}"


def name_line(unit, asked):
    try:
        name = map_name(unit, asked)
    except Refusal as refusal:
        return str(refusal)
    return "no such map" if name is None else f"named {name.hex()}"


def answer_lines(case):
    return reading_line(case.unit), name_line(case.unit, case.asked)


if __name__ == "__main__":
    storedlist.main(__doc__, cases, answer_lines)
