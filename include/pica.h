/*
 * The bench's calls for C: PICA200 shader libraries (DVLB files) judged, reported, listed and walked, and single words.
 *
 * Every call takes every input and returns. It reads and writes nothing but the memory that it is lent, keeps nothing
 * between calls, and may run in several threads at once. A slice goes as a pointer and the number of its elements; of an
 * empty one the pointer is not looked at. The caller sees to it that a slice that is written overlaps no other slice of
 * the same call, that a pointer to larger elements is aligned to them, and that nobody else writes to a slice meanwhile.
 *
 * Every call answers one number of 64 bits. Its upper half is the number of a refusal, 0 if there is none. Its lower half
 * is the refusal's place, or without a refusal the call's value. A refused call leaves what it is lent as it was.
 *
 * Refusals 1 to 28 are those of the library, found by the whole check, which every call on a file makes first; 29 then
 * says that an executable or a constant is not there, 30 that a lent slice is too short, both at place 0. 9 at place 0 is
 * an unknown word, from pica_decode; 31 at place 0 is from pica_encode. docs/REFUSALS.md has the meaning of each number
 * and of its place: 0; a word's index; or 65,536 times an executable's index, plus the index of an entry or a word.
 */
#ifndef PICA_H
#define PICA_H

#include <stddef.h>
#include <stdint.h>

#ifdef __cplusplus
extern "C" {
#endif

/* The two halves of an answer. */
static inline uint32_t pica_refusal(uint64_t answer) { return (uint32_t)(answer >> 32); }
static inline uint32_t pica_place(uint64_t answer) { return (uint32_t)answer; }
static inline uint32_t pica_value(uint64_t answer) { return (uint32_t)answer; }

/* The whole check. Value: 0, the library is accepted. */
uint64_t pica_check(const uint8_t *file, size_t file_length);

/*
 * The report of an executable, counted from 0. Value: 8, and out[0] to out[7] are
 *   type (0 vertex, 1 geometry), main, endmain (word indices, endmain the word after main's last),
 *   ones in the input mask, ones in the output mask, constants, distinct words visited by the check,
 *   total: no run of the executable, whatever its settings, makes more steps.
 * 30 if out_length is under 8.
 */
uint64_t pica_report(const uint8_t *file, size_t file_length, uint32_t executable, uint32_t *out, size_t out_length);

/*
 * The listing, a record of 80 bytes for each word, the line feed in its last column.
 * Value: the bytes written to the start of out, at most 40,960. 30 if they do not fit.
 */
uint64_t pica_list(const uint8_t *file, size_t file_length, uint8_t *out, size_t out_length);

/*
 * The reports as text, a record of 80 bytes for each executable.
 * Value: the bytes written to the start of out, at most 1,280. 30 if they do not fit.
 */
uint64_t pica_summarize(const uint8_t *file, size_t file_length, uint8_t *out, size_t out_length);

/*
 * The control walk of an executable, counted from 0.
 *   bools: 16 bytes, true if not 0, which CALLU, IFU and JMPU read; 30 if there are fewer.
 *   ints: 4 bytes x, a LOOP makes x + 1 turns unless a BREAK leaves it; 30 if there are fewer.
 *   truth: the outcomes of CALLC, IFC, JMPC and BREAKC, one byte for each such word executed, true if not 0; false past the end.
 *   fetched: the index of each word fetched is written here in order, as many as fit; the rest stays.
 * Value: the steps made, at most the report's total; it may be more than fetched_length.
 */
uint64_t pica_walk(const uint8_t *file, size_t file_length, uint32_t executable,
                   const uint8_t *bools, size_t bools_length, const uint8_t *ints, size_t ints_length,
                   const uint8_t *truth, size_t truth_length, uint16_t *fetched, size_t fetched_length);

/*
 * Entry n of the constant table of an executable, both counted from 0. Value: its kind, and out[0] to out[3] are
 *   kind 0, a bool: 0 or 1, then zeros;
 *   kind 1, an integer: the bytes x, y, z, w;
 *   kind 2, a vector: the bit patterns of four f32 values x, y, z, w, none a NaN.
 * 30 if out_length is under 4.
 */
uint64_t pica_constant(const uint8_t *file, size_t file_length, uint32_t executable, uint32_t n,
                       uint32_t *out, size_t out_length);

/*
 * The fields of a word. Value: its format, and out[0] to out[7] are the operation's number (its lowest opcode), the
 * fields from bit 0 up, `rest` (the bits that the format does not name) last, then zeros:
 *   0 (format 0)    op, rest
 *   1 (format 1)    op, DESC, SRC2, SRC1, IDX_1, DST
 *   2 (format 1i)   op, DESC, SRC2, SRC1, IDX_2, DST
 *   3 (format 1u)   op, DESC, SRC1, IDX_1, DST, rest
 *   4 (format 1c)   op, DESC, SRC2, SRC1, IDX_1, CMPY, CMPX
 *   5 (format 2)    op, NUM, DST, CONDOP, REFY, REFX, rest
 *   6 (format 3)    op, NUM, DST, BOOL or INT, rest
 *   7 (format 4)    op, FLAG_WINDING, FLAG_PRIMEMIT, VTXID, rest
 *   8 (format 5)    op, DESC, SRC3, SRC2, SRC1, IDX_2, DST
 *   9 (format 5i)   op, DESC, SRC3, SRC2, SRC1, IDX_3, DST
 * 9 for an unknown word, then 30 if out_length is under 8.
 */
uint64_t pica_decode(uint32_t word, uint32_t *out, size_t out_length);

/*
 * The word that has a format's fields, the first 8 numbers of fields in the order above; what follows them is not
 * looked at. Value: the word, which pica_decode takes apart into the same numbers. 31 for a format over 9, fewer than 8
 * numbers, one after the format's fields that is not 0, a field that exceeds its bits, or an operation's number that is
 * not the lowest opcode of an entry of the format.
 */
uint64_t pica_encode(uint32_t format, const uint32_t *fields, size_t fields_length);

#ifdef __cplusplus
}
#endif

#endif
