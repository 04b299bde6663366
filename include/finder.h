/*
 * The fault finder's C boundary.
 *
 * Document 01 says what a file, a sheet, a dual, a refusal and its place, a
 * scenario, a model, a record and a list are; of document 02, Card 1 says what
 * held faults are, Card 4 what a text is and Card 5 what FFFF is in a body of
 * the file. This header says only how they cross the boundary.
 *
 * Common to all functions:
 *
 * - A paper is lent as a pointer to its first byte and its length in bytes.
 *   The bytes must be readable for that length and are not written. The
 *   pointer must not be null, even where the length is 0. The length must not
 *   be above PTRDIFF_MAX. Where a refused paper is told by its number, 0 is the
 *   file, 1 the sheet and 2 the text.
 * - A buffer is lent as a pointer to its first byte and its length in bytes,
 *   with the same bounds on both. The bytes must be readable and writable for
 *   that length and overlap no paper and no other buffer. A call that is
 *   refused leaves them all as they were.
 * - The list is lent as a buffer is, save that it holds 32-bit words, aligned
 *   as uint32_t, and that its length is their count; in bytes it must not be
 *   above PTRDIFF_MAX.
 * - `out` is an array of eight 64-bit words of the caller's, aligned as
 *   uint64_t, that overlaps no paper, no buffer and no list. Every call writes
 *   all eight, whatever they held before. A slot that has no meaning in an
 *   answer is 0.
 * - Nothing is kept after the call returns.
 */

#ifndef FINDER_H
#define FINDER_H

#include <stddef.h>
#include <stdint.h>

#ifdef __cplusplus
extern "C" {
#endif

/*
 * Reads both papers, the file first, and tells which is refused, why and
 * where, and how much of it is left from there.
 *
 *   slot  where a paper is refused            where both are accepted
 *   0     the refusal number, 1 to 10         0
 *   1     the refused paper: 0 file, 1 sheet  0
 *   2     the place in that paper             0
 *   3     the length of the rest of that      0 (the empty part at the
 *         paper from the place                sheet's end)
 *   4-7   0                                   0
 *
 * So where a paper is refused, slots 2 and 3 add up to its length, and its
 * rest is the slot 3 bytes that begin slot 2 bytes after its first byte.
 */
void finder_rest(const uint8_t *file, size_t file_len,
                 const uint8_t *sheet, size_t sheet_len,
                 uint64_t out[8]);

/*
 * Reads the file and writes its dual to the start of the dual buffer.
 *
 *   slot  file refused     dual buffer short   dual written
 *   0     the refusal      11                  0
 *         number, 1 to 10
 *   1     0, the file      0                   0
 *   2     the place        0                   0
 *   3     0                0                   the length of the dual
 *   4-7   0                0                   0
 *
 * So where slot 0 is 0, the first slot 3 bytes of the dual buffer are the dual
 * and those beyond are as they were. No dual is longer than 52,488 bytes.
 */
void finder_write_dual(const uint8_t *file, size_t file_len,
                       uint8_t *dual, size_t dual_len,
                       uint64_t out[8]);

/*
 * Reads both papers, the file first, and judges the scenario. Writes the dual
 * of the file to the start of the dual buffer and the model to the start of
 * the model buffer: a byte for each of the N judged literals, 0 undefined,
 * 1 true, 2 false, 3 both. The scenario is an explanation if falsum's byte, the
 * last, is 2, each literal of the query holds (a literal o by byte 1 or 3,
 * not(o) by 2 or 3), and none of the N bytes is 3.
 *
 *   slot  paper refused            11, 12 or 13   scenario judged
 *   0     the refusal number,      11 short dual  0
 *         1 to 10                  12 short model
 *                                  13 no scenario
 *   1     the refused paper:       0              0
 *         0 file, 1 sheet
 *   2     the place in that paper  0              0
 *   3     0                        0              the verdict: 1 where the
 *                                                 scenario is an explanation,
 *                                                 else 0
 *   4     0                        0              the round count
 *   5-7   0                        0              0
 *
 * The tests come in the order of their numbers. Where slot 0 is 0, the bytes
 * of both buffers beyond the dual and beyond the model are as they were. N is
 * one more than twice the atom count, so no model is longer than 513 bytes.
 */
void finder_judge(const uint8_t *file, size_t file_len,
                  const uint8_t *sheet, size_t sheet_len,
                  uint32_t scenario,
                  uint8_t *dual, size_t dual_len,
                  uint8_t *model, size_t model_len,
                  uint64_t out[8]);

/*
 * Reads the file and begins a search that holds the faults of two masks. Bit i
 * of a mask, from 0, the lowest, on, is for the i-th abducible: `assumed` has
 * the faults held as assumed, `ruled` those held as ruled out. Where both are 0
 * no fault is held.
 *
 *   slot  file refused     15 or 16            search begun
 *   0     the refusal      15 the masks share  0
 *         number, 1 to 10  a bit
 *                          16 a bit at or
 *                          above k is set
 *   1     0, the file      0                   0
 *   2     the place        0                   0
 *   3     0                0                   the position, 0
 *   4     0                0                   found, 0
 *   5     0                0                   assumed, as given
 *   6     0                0                   ruled, as given
 *   7     0                0                   0
 *
 * The tests come in the order of their numbers, so masks that share a bit at or
 * above k are refused by 15. Where slot 0 is 0, slots 3 to 6 are the record of
 * the fresh search; its list may hold anything.
 */
void finder_fresh(const uint8_t *file, size_t file_len,
                  uint16_t assumed, uint16_t ruled,
                  uint64_t out[8]);

/*
 * Reads both papers, the file first, and goes on with the search of the record
 * (position, found, assumed and ruled) and of the list for as many scenarios as
 * the allowance lets it try. Writes the dual of the file to the start of the
 * dual buffer and adds what it finds to the list.
 *
 * A scenario whose digit at a held fault is not the held one (1 assumed, 2
 * ruled out; 0 is neither) counts as tried, with zero rounds, and is no
 * explanation of that search. One whose model has a byte 3 is none either, as
 * finder_judge says, and counts as tried with its rounds.
 *
 *   slot  paper refused            11 or 14           search continued
 *   0     the refusal number,      11 short dual      0
 *         1 to 10                  14 spoilt search
 *   1     the refused paper:       0                  0
 *         0 file, 1 sheet
 *   2     the place in that paper  0                  0
 *   3     the position, as given   as given           the new position
 *   4     found, as given          as given           the new found
 *   5     0                        0                  how many were tried
 *   6     0                        0                  their rounds added up
 *   7     0                        0                  the state: 0 going,
 *                                                     1 full, 2 ended
 *
 * The tests come in the order of their numbers. 14 also refuses a record whose
 * masks finder_fresh would refuse by 15 or 16. The record of a fresh search is
 * that of finder_fresh, and its list may hold anything. Slots 3 and 4, with the
 * masks, which never change and so are not told, are the record for the next
 * call, whether this one was refused or not. Where slot 0 is 0, the bytes of the
 * dual buffer beyond the dual are as they were, and so is every entry of the
 * list but those from the old found up to the new one.
 */
void finder_continue(const uint8_t *file, size_t file_len,
                     const uint8_t *sheet, size_t sheet_len,
                     uint8_t *dual, size_t dual_len,
                     uint32_t *list, size_t list_len,
                     uint32_t position, uint32_t found,
                     uint16_t assumed, uint16_t ruled,
                     uint32_t allowance,
                     uint64_t out[8]);

/*
 * Reads the text, rules typed as Card 4 has it, and writes the file that they
 * make to the start of the file buffer.
 *
 *   slot  text refused           file buffer short   file written
 *   0     the refusal number,    11                  0
 *         17, 18, 3, 8 or 9
 *   1     2, the text            0                   0
 *   2     the place in the text  0                   0
 *   3     0                      0                   the length of the file
 *   4-7   0                      0                   0
 *
 * The tests come in this order: over the whole text 17 and 18, the earlier
 * place first; then what a reader of the file would refuse, in the order of its
 * fields (3 for the abducibles; 9, 3 and 8 for each rule; 9 and 3 for each
 * integrity rule), at the first token of the line; then 11. So where slot 0 is
 * 0, the first slot 3 bytes of the file buffer are the file, of edition 1, and
 * those beyond are as they were. No file is longer than 46,895 bytes.
 */
void finder_import(const uint8_t *text, size_t text_len,
                   uint8_t *file, size_t file_len,
                   uint64_t out[8]);

#ifdef __cplusplus
}
#endif

#endif
