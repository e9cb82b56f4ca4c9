"""Writes a stored list: the coded cases to `stdin`, two lines of answer for each case to `stdout`."""

import sys
from collections import Counter
from pathlib import Path


def kind_of(answer):
    """`refused N` for a refusal, else the answer's first word."""
    words = answer.split()
    return " ".join(words[:2]) if words[0] == "refused" else words[0]


def write_list(folder, cases, answer_lines):
    folder.mkdir(parents=True, exist_ok=True)
    counts = Counter()
    with (folder / "stdin").open("wb") as stored, (folder / "stdout").open("w", newline="\n") as answers:
        for case in cases():
            first, second = answer_lines(case)
            stored.write(case.coded())
            answers.write(f"{first}\n{second}\n")
            counts[kind_of(first)] += 1
    print(f"{sum(counts.values())} cases:", ", ".join(f"{kind}: {count}" for kind, count in sorted(counts.items())))


def print_list(cases, answer_lines):
    for number, case in enumerate(cases()):
        print(f"{number}: {case.title}: {answer_lines(case)[0]}")


def main(usage, cases, answer_lines):
    if len(sys.argv) != 2 or sys.argv[1] in ("-h", "--help"):
        print(usage)
    elif sys.argv[1] == "--list":
        print_list(cases, answer_lines)
    else:
        write_list(Path(sys.argv[1]), cases, answer_lines)
