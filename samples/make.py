"""Writes the sample units beside this file: python3 samples/make.py"""

import sys
from pathlib import Path

HERE = Path(__file__).resolve().parent
sys.path.insert(0, str(HERE.parent / "tests" / "units"))

from layout import block, branch, head, immediate, instruction, jump, map_, return_, variable

HELPER_CALL, LOAD_CTX, NULL_CHECK, BINARY = 1, 4, 7, 8
LOAD_KEY, STORE, COPY_CTX, CALL_MAP, UPDATE_MAP = 2, 3, 6, 9, 10
RESERVE, SUBMIT = 11, 12
ADD = 0
GET_PID = 14
KTIME = 5


def unit(maps, blocks):
    """A unit: its maps' names, and blocks as lists of records."""
    names = [map_(name) for name in maps]
    return b"".join([head(maps=len(maps), blocks=len(blocks))] + names + [b"".join(records) for records in blocks])


SAMPLES = {
    # 01's P2: a value looked up by a constant key.
    "seen": unit(
        [b"seen"],
        [[block(1), instruction(CALL_MAP, [immediate(5)], result=4, number=0), return_(variable(4))]],
    ),
    # How often each process wrote: a count looked up by the pid and raised by one, or begun at one.
    "writes": unit(
        [b"writes_by_pid"],
        [
            [
                block(1),
                instruction(HELPER_CALL, result=1, number=GET_PID),
                instruction(CALL_MAP, [variable(1)], result=2, number=0),
                instruction(NULL_CHECK, [variable(2)], result=3),
                branch(variable(3), 2, 3),
            ],
            [
                block(2),
                instruction(LOAD_KEY, [variable(2)], result=4),
                instruction(BINARY, [variable(4), immediate(1)], result=5, small=ADD),
                instruction(STORE, [variable(2), variable(5)], result=6, small=8),
                jump(4),
            ],
            [
                block(3),
                instruction(UPDATE_MAP, [variable(1), immediate(1)], result=7, number=0),
                jump(4),
            ],
            [block(4), return_(immediate(0))],
        ],
    ),
    # A visit note that came in: its 16 bytes at offset 24 of the context and the time, sent through a ring buffer.
    "visit": unit(
        [b"notes"],
        [
            [
                block(10),
                instruction(RESERVE, result=1, offset=0, number=16),
                instruction(NULL_CHECK, [variable(1)], result=2),
                instruction(HELPER_CALL, result=3, number=KTIME),
                instruction(COPY_CTX, [variable(1)], result=4, offset=24, number=16),
                instruction(LOAD_CTX, result=5, small=4, offset=8),
                instruction(STORE, [variable(1), variable(3)], result=6, small=8),
                instruction(SUBMIT, [variable(1)], result=7, number=0),
                return_(immediate(0)),
            ]
        ],
    ),
    # Two blocks with one id: both are emitted, and a jump goes to the last.
    "twins": unit(
        [],
        [
            [block(1), jump(2)],
            [block(2), return_(immediate(1))],
            [block(2), return_(immediate(2))],
        ],
    ),
    # A branch to blocks that are not there: refused as 18, the false target first.
    "lost": unit([], [[block(1), branch(immediate(1), 7, 8)]]),
}


def main():
    for name, content in SAMPLES.items():
        (HERE / f"{name}.unit").write_bytes(content)


if __name__ == "__main__":
    main()
