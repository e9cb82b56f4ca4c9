"""Checks the reference screen against codes worked out by hand, and against a plain walk over single paths.

    python3 selftest.py

Prints one line and exits with 0, or stops at the first check that fails.
"""

import asm
import cases_known
import cases_paths
import cases_random
import cases_relocations
import paths
from asm import ADD, alu, call, copy, exit_, ja, jeq, jne, ldx, mov, stx, wide
from insn import Insn, decode, encode, form_of, slots_of
from make_codes import fnv1a
from screen import UNTOUCHED, screen
from stored import Case, Listed, Pairs, decoded, small


def judged(code, relocations=(), room=None):
    """The refusal, and the table in hexadecimal."""
    table = [UNTOUCHED] * (len(code) // 8 if room is None else room)
    refusal = screen(code, relocations, table)
    return refusal, " ".join(f"{entry:04x}" for entry in table)


def bytes_of_instructions():
    # R6 = R1; R0 = 0; exit; R2 = 5; store R2 at R10 - 16; R2 += -16; jump back by one.
    assert copy(6, 1).hex() == "bf16000000000000"
    assert mov(0, 0).hex() == "b700000000000000"
    assert exit_().hex() == "9500000000000000"
    assert mov(2, 5).hex() == "b702000005000000"
    assert stx(8, 10, 2, -16).hex() == "7b2af0ff00000000"
    assert alu(ADD, 2, -16).hex() == "07020000f0ffffff"
    assert ja(-1).hex() == "0500ffff00000000"
    assert wide(1).hex() == "18110000000000000000000000000000"
    for slot in ("7b2af0ff00000000", "8500000001000000", "ffffffffffffffff", "0123456789abcdef"):
        assert encode(decode(bytes.fromhex(slot))).hex() == slot
    assert decode(bytes.fromhex("0123456789abcdef")) == Insn(0x01, 3, 2, 0x6745, -0x10325477)


def opcodes():
    """The forms computed from RFC 9669's fields are the thirty opcodes listed by hand."""
    assert len(set(asm.OPCODES)) == 30
    assert {code for code in range(256) if form_of(code)} == set(asm.OPCODES)
    assert {code for code in range(256) if form_of(code) == "ldx"} == {0x61, 0x69, 0x71, 0x79}
    assert {code for code in range(256) if form_of(code) == "alu imm"} == {0x07, 0x17, 0x27, 0x37, 0x67, 0x77, 0x97}


def known_points():
    assert judged(copy(6, 1) + mov(0, 0) + exit_()) == (None, "0402 0442 0443")
    assert judged(copy(6, 1)) == ((39, 1, 0), "0402")
    assert judged(exit_()) == ((38, 0, 0), "0402")
    assert judged(copy(6, 1) + ja(-1)) == (None, "0402 0442")
    # The lookup: after the call R1 to R5 are gone and R0 is there.
    assert judged(cases_known.LOOKUP, (8, 0)) == (
        None, "0402 0442 07ff 0442 0446 0446 0446 0446 0441 0441 0441")


def known_lengths():
    assert judged(b"", room=3) == ((30, 0, 0), "aaaa aaaa aaaa")
    assert judged(exit_()[:7], room=0)[0] == (30, 0, 0)
    assert judged(bytes(1_048_584), room=0)[0] == (30, 0, 0)
    assert judged(mov(0, 0) + exit_(), room=1) == ((31, 0, 2), "aaaa")
    assert judged(mov(0, 0) + exit_(), room=3) == (None, "0402 0403 aaaa")


def known_shapes():
    end = mov(0, 0) + exit_()
    known = (
        (encode(Insn(0x00)), 32), (encode(Insn(0x0C)), 32), (call(3), 32), (call(131 + 256), 32),
        (encode(Insn(0x18, 1, 0)) + bytes(8), 32), (encode(Insn(0x18, 1, 1, 0, 1)) + bytes(8), 32),
        (encode(Insn(0x18, 1, 1)) + mov(0, 0), 32),
        (mov(10, 0), 33), (mov(11, 0), 33), (copy(2, 11), 33), (ldx(8, 10, 1, 0), 33), (jeq(11, 0), 33),
        (encode(Insn(0x18, 10, 1)) + bytes(8), 33), (stx(8, 1, 12, 0), 33),
        (jeq(10, 0), None), (stx(8, 10, 1, -8), None), (stx(8, 1, 10, -3), None),
        (encode(Insn(0x95, 11)), 34), (encode(Insn(0x05, imm=1)), 34), (encode(Insn(0xB7, 0, 1)), 34),
        (encode(Insn(0xB7, 0, 0, 1)), 34), (encode(Insn(0xBF, 2, 1, 0, 1)), 34), (encode(Insn(0x15, 1, 1)), 34),
        (encode(Insn(0x18, 1, 1, 1)) + bytes(8), 34), (encode(Insn(0x85, 0, 1, 0, 5)), 34),
        (ldx(8, 0, 10, -512), None), (ldx(8, 0, 10, -513), 35), (ldx(8, 0, 10, -520), 35), (ldx(8, 0, 10, -4), 35),
        (ldx(8, 0, 10, -8), None), (ldx(8, 0, 10, 0), 35), (ldx(4, 0, 10, -4), None), (ldx(4, 0, 10, -2), 35),
        (ldx(2, 0, 10, -2), None), (ldx(1, 0, 10, -1), None), (ldx(1, 0, 10, 0), 35), (stx(1, 10, 1, -513), 35),
        (ja(2), 36), (ja(-2), 36), (ja(1), None), (jne(1, 9), 36),
    )
    for instruction, number in known:
        relocations = (0, 0) if instruction[0] == 0x18 else ()
        refusal = judged(instruction + end, relocations)[0]
        shape = refusal[0] if refusal and refusal[0] < 37 else None
        assert shape == number and (number is None or refusal[1:] == (0, 0)), instruction.hex()
    # A wide load's second slot is no start, and a cut one is 32.
    assert judged(ja(1) + wide(1) + end, (8, 0))[0] == (36, 0, 0)
    assert judged(ja(2) + wide(1) + end, (8, 0))[0] is None
    assert judged(copy(6, 1) + wide(1)[:8])[0] == (32, 1, 0)
    # The lower slot before the lower number.
    assert judged(ja(7) + encode(Insn(0)))[0] == (36, 0, 0)


def known_relocations():
    code = wide(1) + copy(6, 1) + wide(2) + mov(0, 0) + exit_()
    for numbers, index in (
            ((0, 5, 24, 6), None), ((), 0), ((0,), 1), ((0, 5), 2), ((0, 5, 24), 3), ((0, 5, 24, 6, 9), 4),
            ((8, 5, 24, 6), 0), ((0, 5, 3, 6), 2), ((24, 5, 0, 6), 0), ((0, 24, 5, 6), 2)):
        expected = None if index is None else (37, index, 0)
        refusal, table = judged(code, numbers)
        assert refusal == expected, numbers
        assert index is None or set(table.split()) == {"aaaa"}


def known_paths():
    # A diamond: R2 on one side, R3 on the other. The store needs both; the lower one is named.
    diamond = jeq(1, 2) + mov(2, 0) + ja(1) + mov(3, 0)
    assert judged(diamond + stx(8, 3, 2, 0) + mov(0, 0) + exit_()) == (
        (38, 4, 2), "0402 0402 0406 0402 0402 0402 0403")
    # A loop whose call takes R1 away: the read at its top is at fault on the second round.
    assert judged(mov(0, 0) + copy(6, 1) + call(5) + jeq(0, -3) + exit_()) == (
        (38, 1, 1), "0402 0401 0441 0441 0441")
    # What was missing stays missing, so the table after the fault does not hold R2.
    assert judged(copy(6, 2) + copy(7, 6)) == ((38, 0, 2), "0402 0442")
    # An addition reads and then writes.
    assert judged(alu(ADD, 2, 1) + copy(0, 2) + exit_()) == ((38, 0, 2), "0402 0406 0407")
    # A call's arguments, and R1 to R5 afterwards.
    assert judged(mov(2, 0) + mov(3, 0) + call(2) + exit_()) == ((38, 2, 4), "0402 0406 040e 0401")
    assert judged(call(5) + call(132) + exit_()) == ((38, 1, 1), "0402 0401 0401")
    # 39 on one side; 38 has the lower place; a part that no path comes to.
    assert judged(jeq(1, 2) + mov(0, 0) + exit_() + mov(2, 0)) == ((39, 4, 0), "0402 0402 0403 0402")
    assert judged(mov(0, 0) + exit_() + copy(3, 2)) == (None, "0402 0403 07ff")


def plain_walk(slots):
    """Every path that repeats no (slot, registers), one by one: what `followed` finds without walking again."""
    met = [set() for _ in slots]
    ends = False

    def walk(slot, readable, before):
        nonlocal ends
        if slot == len(slots):
            ends = True
        elif (slot, readable) not in before:
            met[slot].add(readable)
            after = paths.readable_after(slots[slot], readable)
            for target in paths.next_slots(slots[slot], slot):
                walk(target, after, before | {(slot, readable)})

    walk(0, paths.AT_START, frozenset())
    return met, ends


def paths_one_by_one():
    checked = 0
    for case in (*cases_paths.cases(), *cases_random.cases()):
        slots = slots_of(case.code)
        conditional = sum(form_of(insn.code) in ("jeq", "jne") for insn in slots)
        refusal = screen(case.code, case.relocations.numbers, [0] * case.table)
        if conditional > 5 or (refusal and refusal[0] < 38):
            continue
        met, ends = paths.followed(slots)
        assert ([sets or set() for sets in met], ends) == plain_walk(slots), case.title
        checked += 1
    assert checked > 1000


def list_coding():
    cases = [*cases_relocations.cases(), *cases_random.cases()]
    cases.append(Case("", ((3, copy(6, 1)), (2, wide(1))), Pairs(2, 24, 16), 9, b"xyz"))
    assert cases[-1].code == copy(6, 1) * 3 + wide(1) * 2 + b"xyz"
    assert cases[-1].relocations.numbers == [24, 0, 40, 1]
    cases.append(small("", exit_() + b"q"))
    stored = b"".join(case.coded() for case in cases)
    assert list(decoded(stored)) == [(case.code, list(case.relocations.numbers), case.table) for case in cases]
    assert Listed((7, 8)).coded().hex() == "020000000700000008000000"
    # Published values of FNV-1a.
    assert fnv1a(b"") == 0xCBF29CE484222325 and fnv1a(b"a") == 0xAF63DC4C8601EC8C
    assert fnv1a(b"foobar") == 0x85944171F73967E8


def main():
    bytes_of_instructions()
    opcodes()
    known_points()
    known_lengths()
    known_shapes()
    known_relocations()
    known_paths()
    paths_one_by_one()
    list_coding()
    print("screen: all checks hold")


if __name__ == "__main__":
    main()
