/* The proved control-flow mapper, for C. Link crates/aznifrem_c/out/libaznifrem.a (x86-64 Linux). */
#ifndef AZNIFREM_H
#define AZNIFREM_H

#include <stddef.h>
#include <stdint.h>

#ifdef __cplusplus
extern "C" {
#endif

/* The longest code that is mapped, init code; and the longest that is deployed. */
#define AZNIFREM_LONGEST_CODE 49152u
#define AZNIFREM_LONGEST_DEPLOYED 24576u
#define AZNIFREM_HIGHEST_LIMIT 500000u

/* The choices: records with their numbers, of kind 9 or 12, or without, of kind 8 or 11. */
#define AZNIFREM_NUMBERED 0
#define AZNIFREM_WITHOUT_NUMBERS 1 /* so is any other number */

/* The modes: what PUSH0 puts is not known, or is known to be 0. */
#define AZNIFREM_PLAIN 0
#define AZNIFREM_KNOWN_ZERO 1

/* Bytes that w must have for a code of n bytes. */
#define AZNIFREM_WORK(n) (64u * (size_t)(n) + 256u)

/* A missing destination in the answer of a code of n bytes: in a longer code 0x8000 may be an address. */
#define AZNIFREM_NOWHERE(n) ((n) > AZNIFREM_LONGEST_DEPLOYED ? 0xffffu : 0x8000u)

/* What a call gives instead of an answer. 1 to 3 and 13 touch nothing. */
#define AZNIFREM_CODE_TOO_LONG 1
#define AZNIFREM_LIMIT_TOO_HIGH 2
#define AZNIFREM_NO_SUCH_MODE 13 /* tested after 2 and before 3 */
#define AZNIFREM_W_SHORT 3
#define AZNIFREM_P_SHORT 4
#define AZNIFREM_S_SHORT 5
#define AZNIFREM_T_SHORT 6
#define AZNIFREM_R_SHORT 7
#define AZNIFREM_Q_SHORT 8
#define AZNIFREM_OUT_SHORT 9
#define AZNIFREM_TEXT_SHORT 11 /* of aznifrem_json alone */

/* Whether what aznifrem_map or aznifrem_json gave is a refusal's number: an answer has 18 bytes at the least. */
#define AZNIFREM_REFUSED(given) ((given) < 18u)

/* Maps a code with an energy limit, by a choice and in a mode, in memory that the caller lends; no other is used.
 *
 *   w    work, AZNIFREM_WORK(code_len) bytes     r    records, 32 bytes each
 *   p    the path in hand, 2 bytes an address    q    recorded paths, 2 bytes an address
 *   s    states, 9 bytes a symbol                out  the answer
 *   t    remembered rows, 32 bytes each
 *
 * The lent memory may hold anything; no two parts may overlap, nor overlap the code. A part of
 * length 0 still needs a pointer that is not NULL.
 *
 * Gives the number of a refusal, 1 to 9 or 13, or the bytes written to out, never fewer than 18. After
 * 4 to 9: lend more of the named part, and call again. On an answer and on 4 to 9 all of w to q is
 * zero bytes afterwards. On a refusal out is untouched; on an answer its bytes after the written
 * ones are.
 *
 * The answer is a row of entries: length of body (4 bytes), kind (2), body; little-endian.
 * Addresses are 2 bytes; a missing destination is AZNIFREM_NOWHERE(code_len); counts, path lengths and energy are 4.
 *   1 head          code length (2), block count (2), record count, energy
 *   2 Terminate     start, end, success (1)
 *   3 Jump          start, end, to
 *   4 Jumpi         start, end, true, false
 *   5 DynamicJump   start, end, count
 *   6 DynamicJumpi  start, end, false, count
 *   7 path of the dynamic block before it: to, path length, path
 *   8 record        start, to, path length, path; or, if choice is 0,
 *   9 record        start, to, energy used when it was made, path length, path
 * Order: head, blocks by start each with its 7s, records as found. Of a code of more than
 * AZNIFREM_LONGEST_DEPLOYED bytes, as the head says, the kinds 7, 8 and 9 are 10, 11 and 12. */
uint64_t aznifrem_map(uint64_t limit, uint64_t choice, uint64_t mode,
                      const uint8_t *code, size_t code_len,
                      uint8_t *w, size_t w_len, uint8_t *p, size_t p_len,
                      uint8_t *s, size_t s_len, uint8_t *t, size_t t_len,
                      uint8_t *r, size_t r_len, uint8_t *q, size_t q_len,
                      uint8_t *out, size_t out_len);

/* The same, and the answer's blocks as JSON in one more part:
 *
 *   text  a list of objects with id, start, end, type and data, as serde makes it of evmole's
 *         blocks; no spaces, a missing destination is null. There is no zero byte at its end.
 *
 * Gives the number of a refusal, 1 to 9, 13 or 11, which comes last; or the bytes written to out and,
 * times 2^32, those written to text: AZNIFREM_OUT_BYTES and AZNIFREM_TEXT_BYTES. On a refusal text
 * is untouched; on an answer its bytes after the written ones are. On 11 the others are as on 9. */
uint64_t aznifrem_json(uint64_t limit, uint64_t choice, uint64_t mode,
                       const uint8_t *code, size_t code_len,
                       uint8_t *w, size_t w_len, uint8_t *p, size_t p_len,
                       uint8_t *s, size_t s_len, uint8_t *t, size_t t_len,
                       uint8_t *r, size_t r_len, uint8_t *q, size_t q_len,
                       uint8_t *out, size_t out_len, uint8_t *text, size_t text_len);

/* The two counts of an answer of aznifrem_json. */
#define AZNIFREM_OUT_BYTES(n) ((size_t)((n) & 0xffffffffu))
#define AZNIFREM_TEXT_BYTES(n) ((size_t)((n) >> 32))

/* What aznifrem_read and aznifrem_report_add give in their lowest byte instead of 0. */
#define AZNIFREM_BAD_ENTRY 12

/* Where the first bad entry begins, of what aznifrem_read or aznifrem_report_add gave. */
#define AZNIFREM_OFFSET(given) ((size_t)((given) >> 8))

/* Reads an answer back that was stored: gives 0 if the bytes hold one, else AZNIFREM_BAD_ENTRY and
 * 256 times the offset of the first bad entry; wrong counts of the head are looked at last and give
 * offset 0. A kind that is not for the code length of the head is bad as one that is not known. Nothing is
 * written. A map of length 0 still needs a pointer that is not NULL. */
uint64_t aznifrem_read(const uint8_t *map, size_t map_len);

/* A report over stored maps: 15 numbers of 8 bytes, little-endian. All zero bytes are taken as
 * a report of no maps; the first call that is not refused writes its share.
 *
 *    0 maps                    6 dynamic blocks without destination    11 longest path
 *    1 Terminate               7 with one                              12 energy
 *    2 Jump                    8 with several                          13 share of 6 in 6 to 8,
 *    3 Jumpi                   9 records with destination              14 in lowest terms; 0 over
 *    4 DynamicJump            10 without                                  1 if there are none
 *    5 DynamicJumpi */
#define AZNIFREM_REPORT_BYTES 120u

/* What a call on a report gives where a number of it, or the dynamic blocks together, would not
 * fit 64 bits, or where a report has fewer than AZNIFREM_REPORT_BYTES. */
#define AZNIFREM_TOTAL_TOO_LARGE 16

/* Adds a stored map to a report: gives 0; or AZNIFREM_BAD_ENTRY and 256 times the offset of the
 * map's first bad entry; or AZNIFREM_TOTAL_TOO_LARGE. On a refusal the report is untouched; else
 * its bytes behind the first AZNIFREM_REPORT_BYTES are. The two may not overlap. One of length 0
 * still needs a pointer that is not NULL. */
uint64_t aznifrem_report_add(uint8_t *report, size_t report_len, const uint8_t *map, size_t map_len);

/* Joins another report to a report, which is then that of all their maps: gives 0, or
 * AZNIFREM_TOTAL_TOO_LARGE. The rest as above. */
uint64_t aznifrem_report_join(uint8_t *report, size_t report_len, const uint8_t *other, size_t other_len);
/* What aznifrem_salvage gives instead of 0, where out or report is short. */
#define AZNIFREM_SALVAGE_SHORT 18

/* Bytes that report must have. */
#define AZNIFREM_SALVAGED 32

/* Salvages an archive of stored maps that stand one after another: copies each that reads whole to
 * out, up to the first that does not, and writes four numbers of 8 bytes, little-endian, to report:
 * maps copied, bytes copied, bytes dropped, and the offset of the first bad entry or, where nothing
 * is dropped, the archive's length.
 *
 * Gives 0; or AZNIFREM_SALVAGE_SHORT, and then neither is touched. On 0 the other bytes of both are
 * untouched. As many bytes as the archive has are enough for out. The parts may not overlap, nor
 * overlap the archive; one of length 0 still needs a pointer that is not NULL. */
uint64_t aznifrem_salvage(const uint8_t *archive, size_t archive_len, uint8_t *out, size_t out_len,
                          uint8_t *report, size_t report_len);

/* What aznifrem_follow gives in its lowest byte instead of 0 or AZNIFREM_BAD_ENTRY. */
#define AZNIFREM_UNEVEN_LOG 14
#define AZNIFREM_COUNT_ROOM 15

/* The place of the first step that is not in the map, or the number of steps, of what aznifrem_follow gave with 0. */
#define AZNIFREM_PLACE(given) ((uint64_t)((given) >> 8))

/* Follows a log of program counters, 8 bytes each, little-endian, through a stored map of a code:
 *
 *   work    anything; where an index of the blocks fits, 16 bytes times one more than the last
 *           block's start, a block is found in one step, else it is looked for; what is behind it is
 *           an index of the edges, with which one is taken in one step: 24 bytes for each of twice
 *           the counts and 16 more are enough
 *   counts  8 bytes each: for each block its entries, then for each distinct destination of it
 *           how often that edge was taken, in the answer's order
 *
 * Gives 0 and 256 times the place; or AZNIFREM_BAD_ENTRY and 256 times the offset of the first bad
 * entry, AZNIFREM_UNEVEN_LOG, AZNIFREM_COUNT_ROOM, tested in that order: then nothing is touched. Else
 * work is all zero bytes, and of counts the bytes behind the counts stay. work and counts may not overlap each other, nor map,
 * code or log. No pointer may be NULL. */
uint64_t aznifrem_follow(const uint8_t *map, size_t map_len, const uint8_t *code, size_t code_len,
                         const uint8_t *log, size_t log_len, uint8_t *work, size_t work_len,
                         uint8_t *counts, size_t counts_len);

/* What aznifrem_inspect gives in its lowest byte instead of 0, AZNIFREM_BAD_ENTRY, or a refusal of aznifrem_map. */
#define AZNIFREM_WRONG_PATH 17

/* Inspects a stored map, whoever made it, against a code, in mode 0 or 1: each path entry with a
 * destination is right only if replaying its blocks leads to that destination.
 *
 *   w      AZNIFREM_WORK(code_len) bytes
 *   place  8 bytes, or fewer: the place in the path of the first block that fails, little-endian
 *
 * Gives 0; or AZNIFREM_CODE_TOO_LONG, AZNIFREM_NO_SUCH_MODE or AZNIFREM_W_SHORT, tested in that
 * order: then nothing is touched. Or AZNIFREM_BAD_ENTRY and 256 times the offset of the
 * first bad entry, AZNIFREM_WRONG_PATH and 256 times the offset of the first path entry that is not
 * right (AZNIFREM_OFFSET). Then, and on 0, w is all zero bytes; place is written with
 * AZNIFREM_WRONG_PATH alone, and where it has 8 bytes. w and place may not overlap each other, nor code
 * or map. No pointer may be NULL. */
uint64_t aznifrem_inspect(uint64_t mode, const uint8_t *code, size_t code_len, const uint8_t *map,
                          size_t map_len, uint8_t *w, size_t w_len, uint8_t *place, size_t place_len);

/* The bytes of a row of aznifrem_inspect_from. */
#define AZNIFREM_ROW 16

/* The same of the path entries that stand at the offset `from` or later; the edges are still those of the whole map.
 *
 *   w     AZNIFREM_WORK(code_len) bytes
 *   rows  any number of bytes: a row for each path entry that is not right, in order, as many as there
 *         is room for. A row is the entry's offset and the place in its path, 8 bytes each, little-endian.
 *
 * Gives what aznifrem_inspect gives, of these. rows is written with AZNIFREM_WRONG_PATH alone, and no byte
 * behind the last row that is written. No path entry stands at offset 0, so that a caller who wipes rows
 * sees where they end. If the last row is written, another call from its offset and one more has those
 * behind it; until the last row is full a path is looked at once. */
uint64_t aznifrem_inspect_from(uint64_t mode, uint64_t from, const uint8_t *code, size_t code_len,
                               const uint8_t *map, size_t map_len, uint8_t *w, size_t w_len,
                               uint8_t *rows, size_t rows_len);

#ifdef __cplusplus
}
#endif

#endif
