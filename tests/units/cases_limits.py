"""Every limit and one past it: maps, names, blocks, bytes of a unit. (Operands are counted in cases_damaged.)"""

from layout import (
    BLOCK, HEAD, INSTRUCTION, MAP, TERMINATOR, block, head, immediate, instruction, jump, map_, record, return_,
    variable)
from opcodes import HELPER_CALL, LOAD_KEY
from stored import Case, RepeatedCase

LONGEST = 262_144
SHORT_BLOCK = block(1) + jump(1)


def numbered_names(count, length):
    return [bytes([number]) * length for number in range(count)]


def maps(count, names, blocks=0):
    return head(count, blocks) + b"".join(map_(name) for name in names)


def block_of(length):
    """A block's records in exactly `length` bytes: instructions of 20 + 9k bytes between block and jump."""
    rest = length - len(SHORT_BLOCK)
    for instructions in range(rest // 20 + 1):
        operands, odd = divmod(rest - 20 * instructions, 9)
        if odd == 0 and operands <= 8 * instructions:
            break
    else:
        raise ValueError(f"no block of {length} bytes")
    body = b""
    for result in range(instructions):
        here = min(8, operands)
        operands -= here
        body += instruction(HELPER_CALL, [variable(result)] * here, result=result, number=14)
    return block(1) + body + jump(1)


def map_counts():
    for length in (1, 63, 64):
        for asked in (0, 63, 64):
            yield Case(f"64 maps with names of {length} bytes, map {asked} asked for",
                       maps(64, numbered_names(64, length)), asked)
    names = numbered_names(66, 3)
    yield Case("65 maps", maps(65, names[:65]), 64)
    yield Case("64 maps and one map too few", maps(64, names[:63]), 63)
    yield Case("64 maps and one map too many", maps(64, names[:65]), 63)
    yield Case("64 maps, the last name of 65 bytes", maps(64, names[:63] + [b"n" * 65]))
    yield Case("64 maps, the last name empty", maps(64, names[:63] + [b""]), 63)
    yield Case("64 maps and a block", maps(64, names[:64], 1) + SHORT_BLOCK, 63)


def block_counts():
    def blocks(title, count, present):
        prefix = head(0, count)
        return RepeatedCase(title, len(prefix) + present * len(SHORT_BLOCK), prefix, SHORT_BLOCK)

    yield blocks("1,023 blocks", 1023, 1023)
    yield blocks("1,024 blocks", 1024, 1024)
    yield blocks("1,025 blocks", 1025, 1025)
    yield blocks("1,024 blocks counted, 1,023 there", 1024, 1023)
    yield blocks("1,024 blocks counted, 1,025 there", 1024, 1025)
    yield blocks("no blocks counted, 1,024 there", 0, 1024)
    long = blocks("", 1024, 1024)
    yield RepeatedCase("1,024 blocks, cut in the last terminator", long.total - 1, long.prefix, long.pattern)
    yield RepeatedCase("1,024 blocks and one byte", long.total + 1, long.prefix, long.pattern)
    yield Case("1,024 blocks, the last of a wrong kind", long.unit[:-17] + record(6, b"") + jump(1))


def unit_lengths():
    # 1,024 short blocks, and 16 long ones; the first is shorter by the head.
    for blocks, length in ((1024, 256), (16, 16_384)):
        prefix = head(0, blocks) + block_of(length - len(head()))
        for total in (LONGEST - 1, LONGEST, LONGEST + 1, LONGEST + length):
            yield RepeatedCase(f"{blocks} blocks in {total:,} bytes", total, prefix, block_of(length))

    never_ending = head(0, 1) + block(1)
    for total in (LONGEST, LONGEST + 1):
        yield RepeatedCase(f"a block without a terminator in {total:,} bytes", total, never_ending,
                           instruction(LOAD_KEY))
        yield RepeatedCase(f"an empty unit and trailing bytes, {total:,} in all", total, head(), b"\x00")
        yield RepeatedCase(f"{total:,} zero bytes", total, b"", b"\x00")
    yield RepeatedCase("524,288 zero bytes", 2 * LONGEST, b"", b"\x00")


def record_lengths():
    """Payloads of 65,535 bytes, the most that a record can say, there and cut by one byte."""
    in_block = head(0, 1) + block(1)
    due = ((HEAD, b""), (MAP, head(1)), (BLOCK, head(0, 1)), (INSTRUCTION, in_block), (TERMINATOR, in_block))
    for kind, before in due:
        prefix = before + record(kind, b"", 65_535)
        for total in (len(prefix) + 65_534, len(prefix) + 65_535):
            yield RepeatedCase(f"kind {kind} with 65,535 bytes, {total:,} in all", total, prefix, b"\x00")
    # Lengths that are right in their low byte alone.
    yield Case("block of 260 bytes", head(0, 1) + record(BLOCK, bytes(260)) + return_(immediate(0)))
    yield Case("return of 266 bytes", head(0, 1) + block(1) + record(TERMINATOR, bytes(266)))
    yield Case("name of 256 + 1 bytes", head(1) + record(MAP, b"n" * 257))


def cases():
    yield from map_counts()
    yield from block_counts()
    yield from unit_lengths()
    yield from record_lengths()
