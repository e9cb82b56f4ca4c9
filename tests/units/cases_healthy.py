"""Units that keep every rule: the known points, every opcode, operand, terminator form and map name."""

from layout import block, branch, head, immediate, instruction, jump, map_, return_, unit, variable
from opcodes import (
    BINARY, BINARY_OPERATIONS, CALL_MAP, COPY_CTX_TO_MEM, HELPER_CALL, LOAD_CTX, LOAD_KEY, LOAD_PACKET,
    MAP_FIELD, NULL_CHECK, STORE, USED_FIELDS)
from stored import Case

LARGEST = {"small": (255,), "offset": (2**31 - 1, -2**31, -1), "number": (2**32 - 1, 2**31)}
IMMEDIATES = (0, 1, -1, 2**31 - 1, -2**31, 2**31, -2**31 - 1, 2**63 - 1, -2**63)
VARIABLES = (0, 1, 255, 2**31, 2**32 - 1)

ZERO = return_(immediate(0))


def one_block(*records, names=()):
    return unit(list(names), block(1) + b"".join(records) + ZERO)


def fifty_six_or_seven(variables):
    """Every variable is the result of one LoadCtx."""
    return one_block(*(instruction(LOAD_CTX, result=number, small=8) for number in range(variables)))


SEEN = unit([b"seen"], block(1) + instruction(CALL_MAP, [immediate(5)], result=4) + return_(variable(4)))


def known_points():
    yield Case("P1 one block, return 0", unit([], block(1) + ZERO))
    yield Case("P2 map seen", SEEN)
    yield Case("P2 map seen, the next map asked for", SEEN, 1)
    yield Case("P3 no blocks", head())
    yield Case("P4 one block jumping to itself", unit([], block(1) + jump(1)))
    yield Case("P5 two blocks with id 2", unit(
        [], block(1) + jump(2), block(2) + return_(immediate(1)), block(2) + return_(immediate(2))))
    yield Case("P6 two blocks with id 1", unit([], block(1) + jump(2), block(1) + ZERO, block(2) + ZERO))
    yield Case("P7 56 variables", fifty_six_or_seven(56))
    yield Case("P7 57 variables: no refusal of reading", fifty_six_or_seven(57))
    for value in (2**31 - 1, -2**31, 2**31):
        yield Case(f"P8 immediate {value}", unit([], block(1) + return_(immediate(value))))
    for size, offset in ((8, 32767), (8, 32768), (3, 40000)):
        yield Case(f"P9 size {size} offset {offset}", one_block(
            instruction(LOAD_CTX, result=1, small=size, offset=offset)))
    yield Case("P10 both branch targets missing", unit([], block(1) + branch(variable(1), 7, 8)))


def heads():
    yield Case("maps and no blocks", unit([b"a", b"b"]), 1)
    yield Case("blocks and no maps", unit([], block(0) + ZERO, block(2**32 - 1) + jump(0)))
    yield Case("all blocks with one id", unit([b"m"], *[block(9) + jump(9)] * 5))


def every_opcode():
    for opcode, used in USED_FIELDS.items():
        yield Case(f"opcode {opcode}, all zero", one_block(instruction(opcode), names=[b"m"]))
        for operands in (1, 2, 8):
            mixed = [variable(i) if i % 2 else immediate(-i) for i in range(operands)]
            yield Case(f"opcode {opcode}, {operands} operands", one_block(
                instruction(opcode, mixed, result=2**32 - 1), names=[b"m"]))
        for field in used:
            if field == MAP_FIELD.get(opcode) or (opcode == BINARY and field == "small"):
                continue
            for largest in LARGEST[field]:
                yield Case(f"opcode {opcode}, {field} {largest}", one_block(
                    instruction(opcode, [variable(3)], **{field: largest}), names=[b"m"]))
    for operation in range(BINARY_OPERATIONS):
        yield Case(f"Binary {operation}", one_block(
            instruction(BINARY, [variable(0), immediate(7)], result=1, small=operation)))


def every_operand():
    for count in range(9):
        operands = [immediate(i) if i % 3 else variable(i) for i in range(count)]
        yield Case(f"{count} operands", one_block(instruction(HELPER_CALL, operands, number=count)))
    for value in IMMEDIATES:
        yield Case(f"immediate {value}", one_block(instruction(LOAD_KEY, [immediate(value)])))
    for number in VARIABLES:
        yield Case(f"variable {number}", one_block(
            instruction(STORE, [variable(number), variable(number)], result=number, small=4)))


def every_terminator():
    for operand, what in ((variable(2**32 - 1), "variable"), (immediate(-2**63), "immediate")):
        yield Case(f"return {what}", unit([], block(1) + return_(operand)))
        yield Case(f"branch on {what}", unit([], block(1) + branch(operand, 0, 2**32 - 1)))
    yield Case("jump to the largest id", unit([], block(1) + jump(2**32 - 1)))
    yield Case("three forms in three blocks", unit(
        [], block(1) + branch(variable(1), 2, 3), block(2) + jump(3), block(3) + return_(variable(1))))


def every_map_number():
    names = [bytes([letter]) for letter in b"abcde"]
    for opcode, field in MAP_FIELD.items():
        for number in range(len(names)):
            yield Case(f"opcode {opcode}, map {number} of 5", one_block(
                instruction(opcode, [variable(0)], **{field: number}), names=names), number)


def names():
    yield Case("one empty name", unit([b""]), 0)
    yield Case("an empty name among others", unit([b"a", b"", b"b"]), 1)
    yield Case("a name of 64 bytes", unit([b"n" * 64]), 0)
    yield Case("names of zero and 255 bytes", unit([b"\x00", b"\xff", b"\x00\x00"]), 2)
    yield Case("each name the start of the next", unit([b"x" * length for length in range(65 - 4, 65)]), 3)
    yield Case("names that differ in the last byte", unit([b"n" * 63 + b"a", b"n" * 63 + b"b"]), 1)
    yield Case("names that differ in the first byte", unit([b"a" + b"n" * 63, b"b" + b"n" * 63]), 1)
    yield Case("names that differ in case", unit([b"seen", b"Seen"]), 1)
    yield Case("a name that looks like a record", unit([map_(b"m"), block(1)]), 1)
    for asked in (0, 1, 2, 3, 4, 255, 256, 65536, 65537, 2**31, 2**32 - 1):
        yield Case(f"three names, map {asked} asked for", unit([b"one", b"two", b"three"], block(1) + ZERO), asked)


def many_kinds_of_instruction():
    """One block that uses all opcodes, and one that goes through them backwards."""
    records = [
        instruction(opcode, [variable(opcode)], result=opcode + 1, **{field: 1 for field in used})
        for opcode, used in USED_FIELDS.items()]
    yield Case("all opcodes", one_block(*records, names=[b"a", b"b"]), 1)
    yield Case("all opcodes backwards", one_block(*reversed(records), names=[b"a", b"b"]), 2)
    plain = [instruction(opcode) for opcode in (LOAD_KEY, NULL_CHECK, COPY_CTX_TO_MEM, LOAD_PACKET)]
    yield Case("two blocks with instructions", unit([], block(1) + plain[0] + plain[1] + jump(2),
                                                    block(2) + plain[2] + plain[3] + ZERO))


def cases():
    yield from known_points()
    yield from heads()
    yield from every_opcode()
    yield from every_operand()
    yield from every_terminator()
    yield from every_map_number()
    yield from names()
    yield from many_kinds_of_instruction()
