"""Writes the stored list of records for the record writer: `stdin` and `stdout` in the folder that is named.

    python3 make_writer.py FOLDER    write the list
    python3 make_writer.py --list    print each case's number, title and answer

The answers come from record.py. The formats of both files are stated in README.md beside this script.
"""

import storedlist
from cases_writer import cases
from record import write
from refusal import Refusal

# What every byte of the buffer holds before the call.
FILLER = 0xAA


def answer_lines(case):
    """The answer, and the whole buffer after the call."""
    buffer = bytearray([FILLER] * case.room)
    try:
        answer = f"wrote {write(case.value, case.map_count, buffer)}"
    except Refusal as refusal:
        answer = str(refusal)
    return answer, f"buffer {buffer.hex()}"


if __name__ == "__main__":
    storedlist.main(__doc__, cases, answer_lines)
