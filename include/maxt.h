/* The proved timing calculator for C: the entries of target/staticlib/libboundary.a (`tools/archive`), x86-64.
 *
 * Each entry does what its contract in crates/boundary_c/src/lib.rt says, for every content of its arguments. What no proof can ask of a
 * program in C, and what that program owes therefore:
 *   - each pointer leads to as many elements as the number after it says, or the brackets behind it, readable, and writable where it is not
 *     const; it is not null and is aligned for its type, even where the number is 0;
 *   - no two arguments of a call overlap, and no other thread writes to them during the call.
 */
#ifndef MAXT_H
#define MAXT_H

#include <stddef.h>
#include <stdint.h>

#ifdef __cplusplus
extern "C" {
#endif

/* The first number of an answer: accepted, or why the sheet is refused (documents 01 and 02; docs/REFUSALS.md says when each is given).
 * The last two are of maxt_margins alone. */
enum {
    MAXT_ACCEPTED = 0,
    MAXT_NO_ROOM = 1,
    MAXT_TOO_LONG = 2,
    MAXT_CUT = 3,
    MAXT_BAD_KIND = 4,
    MAXT_BAD_LENGTH = 5,
    MAXT_BAD_FIELD = 6,
    MAXT_BAD_CALL = 7,
    MAXT_TOO_DEEP = 8,
    MAXT_STRAY_MARKER = 9,
    MAXT_NO_PLAIN_BRANCH = 10,
    MAXT_EXTRA = 11,
    MAXT_TOO_BIG = 12,
    MAXT_SHORT_LIST = 13,
    MAXT_BAD_DEADLINE = 14
};

/* A table with fewer places is refused with MAXT_NO_ROOM, a list of deadlines or of margins with MAXT_SHORT_LIST; no sheet has more routines. */
#define MAXT_ROUTINES 64

/* A routine's deadline over this is refused with MAXT_BAD_DEADLINE. */
#define MAXT_LAST_DEADLINE UINT64_C(1099511627775)

/* Answers a sheet.
 *
 * answer[0]: MAXT_ACCEPTED, or the number of the refusal.
 * answer[1]: of a refusal its place, an offset into the sheet; 0 on acceptance.
 * answer[2]: on acceptance the bound of the last routine, in cycles; 0 of a refusal.
 * table: on acceptance the first places, one per routine in order, hold the bounds, and every later place is unchanged; a refusal leaves the
 *        whole table unchanged. How many routines there are stands in the sheet record, at offset 8.
 * The sheet is unchanged.
 */
void maxt_answer(const uint8_t *sheet, size_t sheet_length, uint64_t *table, size_t table_length, uint64_t answer[3]);

/* Where the records of a routine are, from its routine record to the last record of its body.
 *
 * number: the routine, from 1.
 * part[0], part[1]: where they start and where they end, as offsets into the sheet; both are sheet_length where the number is outside 1 to the
 *                   number of routines, or the sheet is refused.
 * The sheet is unchanged.
 */
void maxt_routine(const uint8_t *sheet, size_t sheet_length, uint64_t number, uint64_t part[2]);

/* Answers a sheet as maxt_answer does, and says by how many cycles each routine keeps its deadline.
 *
 * deadlines: in cycles, one per routine in order; later places are not judged. They are unchanged.
 * margins: on acceptance the first places, one per routine in order, hold deadline minus bound: negative when the routine is late, 0 when it
 *          just fits; every later place is unchanged. A refusal leaves the whole list unchanged.
 * answer, table: as maxt_answer has them, but for two refusals more, which leave the table unchanged too:
 *   MAXT_SHORT_LIST, place 0: deadlines or margins have fewer than MAXT_ROUTINES places. It comes after MAXT_NO_ROOM, before all others.
 *   MAXT_BAD_DEADLINE: a routine's deadline is over MAXT_LAST_DEADLINE. It comes after all others; answer[1] is the number of the first such
 *                      routine, from 1, and no offset.
 * The sheet is unchanged.
 */
void maxt_margins(const uint8_t *sheet, size_t sheet_length, uint64_t *table, size_t table_length, const uint64_t *deadlines,
                  size_t deadlines_length, int64_t *margins, size_t margins_length, uint64_t answer[3]);

/* Answers a sheet as maxt_answer does, and returns how much work it was: how many constructs were valued.
 *
 * returned: on acceptance the number of construct records, which are those of kinds 2 to 9; at most (sheet_length - 12) / 8. A call counts one,
 *           whatever its routine holds. The sheet's record and the routines' records do not count. 0 of a refusal.
 * answer, table: as maxt_answer has them.
 * The sheet is unchanged.
 */
uint64_t maxt_work(const uint8_t *sheet, size_t sheet_length, uint64_t *table, size_t table_length, uint64_t answer[3]);

#ifdef __cplusplus
}
#endif

#endif
