"""The twelve opcodes of an instruction record, and what each uses of small, offset and number."""

HELPER_CALL = 1
LOAD_KEY = 2
STORE = 3
LOAD_CTX = 4
LOAD_PACKET = 5
COPY_CTX_TO_MEM = 6
NULL_CHECK = 7
BINARY = 8
CALL_MAP = 9
UPDATE_MAP = 10
RING_BUF_RESERVE = 11
RING_BUF_SUBMIT = 12

# A field that is not named for an opcode must be zero.
USED_FIELDS = {
    HELPER_CALL: ("number",),
    LOAD_KEY: (),
    STORE: ("small",),
    LOAD_CTX: ("small", "offset"),
    LOAD_PACKET: ("small", "offset"),
    COPY_CTX_TO_MEM: ("offset", "number"),
    NULL_CHECK: (),
    BINARY: ("small",),
    CALL_MAP: ("number",),
    UPDATE_MAP: ("number",),
    RING_BUF_RESERVE: ("offset", "number"),
    RING_BUF_SUBMIT: ("number",),
}

# The field that holds a map's number. RingBufReserve keeps it in the signed offset, for its number is the size.
MAP_FIELD = {
    CALL_MAP: "number",
    UPDATE_MAP: "number",
    RING_BUF_RESERVE: "offset",
    RING_BUF_SUBMIT: "number",
}

# Add Sub Mul Div Mod Shl Shr, numbered from 0 in Binary's small.
BINARY_OPERATIONS = 7

FIELDS = ("small", "offset", "number")
