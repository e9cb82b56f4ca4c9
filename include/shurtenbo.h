/* Shurtenbo, a verified eBPF back end: the C interface.
 *
 * Link libshurtenbo.a: `tools/staticlib.sh` writes target/staticlib/libshurtenbo.a, for x86-64. What each function promises is
 * proved; the definitions that the promises cite stand in crates/shurtenbo/specs and in the specs of the crates below it.
 *
 * Lending. A buffer is a pointer and a length, which counts elements and not bytes. A pointer is never null, also where the length
 * is 0, and is aligned for its elements. What a call may write (no const) overlaps nothing else that is lent to the same call. A
 * call keeps no pointer, allocates nothing, ends on every input, and writes to nothing but what it is lent.
 *
 * The answer. Every call leaves three numbers in `answer`, an array that is lent for the answer alone:
 *
 *   success   0, then the two numbers that the call tells
 *   refusal   its number, its place, and its value, a signed number of 64 bits: read it as (int64_t)answer[2]
 *
 * Place is the byte offset of the first record at fault in the unit, a slot for 32 to 36, 38 and 39, an index into the relocations
 * for 37, else 0. Value is 0 where none is named here:
 *
 *    1  the unit is longer than 262,144 bytes
 *    2  a record is due and under 4 bytes remain, or its length passes the end
 *    3  the first record is no valid head
 *    4  the kind is not the one due, or bytes stand after the last record due
 *    5  a payload breaks the rules of its kind, or a map number is not below the map count
 *    6  the record writer's buffer is too short; value: bytes needed
 *   10  more than 56 distinct variables; value 57
 *   11  wrong operand count; value: the count
 *   12  an immediate, or a size of 32 bits, outside 32 signed bits; value: it
 *   13  the offset of a load outside 16 signed bits; value: it
 *   14  a load size, 15 a store size that is not 1, 2, 4 or 8; value: the size
 *   16  helper 16; value 16
 *   17  a helper that is not known; value: its id
 *   18  a jump target is not emitted; value: the block's id
 *   19  a jump distance outside 16 signed bits; value: the block's id
 *   20  a variable has no cell; value: the variable
 *   21  the code buffer is too short; value: bytes needed
 *   22  the relocation buffer is too short; value: u32s needed
 *   30  the code's length is 0, no multiple of 8, or over 1,048,576
 *   31  the table is shorter than the slots; value: slots
 *   32  an opcode, helper or wide form that there is not
 *   33  a register above 10, or R10 written
 *   34  an unused field is not zero
 *   35  an access through R10 outside the frame, or not aligned
 *   36  a jump to no instruction's start
 *   37  the relocations are not exactly those of the wide instructions
 *   38  a register is read that is unreadable on some path; value: the lowest such register
 *   39  a path passes the last slot; place: the slot count
 *
 * Two answers beside these, with place and value 0, are SHURTENBO_NO_SUCH_MAP and SHURTENBO_NOT_EIGHT. A refused call changes
 * nothing but the answer, save the screen's table at 38 and 39. */
#ifndef SHURTENBO_H
#define SHURTENBO_H

#include <stddef.h>
#include <stdint.h>

#ifdef __cplusplus
extern "C" {
#endif

#define SHURTENBO_NO_SUCH_MAP 1000
#define SHURTENBO_NOT_EIGHT 1001

/* ---- units */

/* Reads a whole unit file. Tells how many maps it has, then how many blocks. Refusals: 1 to 5. */
void shurtenbo_read_unit(const uint8_t *unit, size_t unit_len, uint64_t answer[3]);

/* Finds the name of map number `map`, counted from 0. Tells the place of the name's first byte in the unit, then how many bytes the
 * name has, which may be 0. SHURTENBO_NO_SUCH_MAP where the unit has no such map. Refusals, of the whole unit, come first: 1 to 5. */
void shurtenbo_map_name(const uint8_t *unit, size_t unit_len, uint32_t map, uint64_t answer[3]);

/* Compiles a unit. The code's bytes fill the front of `code`. The front of `relocs` holds a pair for each map load, in code order:
 * the load's byte offset in the code, then the map's number. The rest of both is unchanged. Tells how many slots of 8 bytes the
 * code has, then how many pairs there are. Refusals: 1 to 5, 10 to 22; neither buffer is changed then. */
void shurtenbo_compile(const uint8_t *unit, size_t unit_len, uint8_t *code, size_t code_len, uint32_t *relocs, size_t relocs_len,
                       uint64_t answer[3]);

/* ---- code */

/* Judges code that comes from anyone, with its relocations as pairs like those above. Three zeros for yes. Refusals: 30 to 39. For
 * yes, 38 and 39 the front of `table` holds an entry for each slot, the registers that are readable there on every path (bit r for
 * register r), 2047 where no path comes, and the rest is unchanged; for any other refusal all of it is. */
void shurtenbo_screen(const uint8_t *code, size_t code_len, const uint32_t *relocs, size_t relocs_len, uint16_t *table,
                      size_t table_len, uint64_t answer[3]);

/* ---- one instruction */

/* Decodes 8 bytes. Leaves the opcode byte, destination, source, offset and immediate in `fields`, in this order; three zeros.
 * SHURTENBO_NOT_EIGHT where the bytes are not eight, and the fields are unchanged. */
void shurtenbo_decode(const uint8_t *bytes, size_t bytes_len, int64_t fields[5], uint64_t answer[3]);

/* Encodes an instruction to 8 bytes, keeping four bits of each register's number; three zeros. SHURTENBO_NOT_EIGHT where the buffer
 * has not exactly eight bytes, and it is unchanged. */
void shurtenbo_encode(uint8_t code, uint8_t dst, uint8_t src, int16_t off, int32_t imm, uint8_t *bytes, size_t bytes_len,
                      uint64_t answer[3]);

/* ---- one record
 *
 * A record's value is 24 numbers: its kind, and then
 *
 *   1 head          edition, maps, blocks
 *   2 map           the place of its name's first byte, the name's length
 *   3 block         id
 *   4 instruction   result, opcode, small, offset, number, operand count k, k operands
 *   5 terminator    0 (return), an operand; 1 (jump), target; 2 (branch), an operand, true target, false target
 *
 * An operand is two numbers: 0 and a variable, or 1 and an immediate. Offset and immediate are signed numbers of 64 bits in two's
 * complement. What follows is 0 where a record was read, and is not looked at where one is written. */

/* Reads the record that is due at byte `at` of a unit of `maps` maps; due is 0 a head, 1 a map, 2 a block, and by 3 or any other
 * number an instruction or a terminator. Leaves its value in `fields`, and tells the byte after the record, then 0. Refusals: 2 to
 * 5; the fields are unchanged then. */
void shurtenbo_read_record(const uint8_t *unit, size_t unit_len, size_t at, uint8_t due, uint16_t maps, uint64_t fields[24],
                           uint64_t answer[3]);

/* Writes the record that `fields` mean, in a unit of `maps` maps, at the front of `buffer`; the rest is unchanged. A map's name is
 * taken from `names`, at the place that the fields tell. Tells how many bytes were written, then 0. Refusals: 5 at place 0, where
 * the fields mean no record (a number is none of the above or too large for its type, or is not 0 where the opcode does not use it)
 * or the record breaks a rule; then 6. The buffer is unchanged then. */
void shurtenbo_write_record(const uint64_t fields[24], const uint8_t *names, size_t names_len, uint16_t maps, uint8_t *buffer,
                            size_t buffer_len, uint64_t answer[3]);

#ifdef __cplusplus
}
#endif

#endif
