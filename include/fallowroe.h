/* Fallowroe for C: jobs, plans, loads and columns of ring machines, on numbers and lent buffers.
 *
 * Five functions of one proved library, libcapi.a (`rt lib` in crates/capi makes it, for x86-64 Linux; scripts/c-example puts it into
 * target/staticlib). They need memcpy and memset and nothing else, keep nothing between calls, and may be called from any number
 * of threads.
 *
 * The convention, the same for all five and for every input:
 *
 *   - The code that is returned is 0 on success. Else it is a refusal: its number (1 to 14 and 16, README.md's table) in the lowest
 *     byte and its board above it, so number = code % 256 and board = code / 256. No refusal has code 0.
 *   - On success the function's values stand in values[0], values[1] and values[2] (0 where it has fewer than three), and its
 *     result at the front of the buffer or list that was lent for it; every byte and place after the result is as it was.
 *   - On a refusal everything that was lent, values too, is as it was.
 *
 * What a caller owes, since C can't be asked for it:
 *
 *   - Each pointer is to as many elements as the length after it says (values: to three), aligned for its type, and not NULL.
 *     A length of 0 is allowed, and then nothing is read or written; the pointer must still be aligned and not NULL, as
 *     that of any object of the type is.
 *   - What is written (job, plan, list and values where they are not const) overlaps nothing else that the same call is given.
 *     What is only read may overlap, and nobody changes it during the call.
 */
#ifndef FALLOWROE_H
#define FALLOWROE_H

#include <stddef.h>
#include <stdint.h>

#ifdef __cplusplus
extern "C" {
#endif

/* The longest job, in bytes: 7 + 6 * 128. A plan is 15 + 6 * moves bytes long. */
#define FALLOWROE_LONGEST_JOB 775

/* The most columns that a ring has: 128 boards of 4,095. */
#define FALLOWROE_MOST_COLUMNS 524160

/* The refusal's number in a code, and 0 in the code of success. */
static inline unsigned fallowroe_number(uint64_t code) { return (unsigned)(code % 256); }

/* The refusal's board in a code. */
static inline unsigned fallowroe_board(uint64_t code) { return (unsigned)(code / 256); }

/* Checks any bytes as a job. Values: kind, n, 0. Refusals 1 to 11. */
uint64_t fallowroe_check(const uint8_t *job, size_t job_length, uint64_t values[3]);

/* Writes the job of a kind and three lists, one number to a board, at the front of `job`.
 * Values: the length written, 0, 0. Refusals 4; 5 for loads_length; 6 where another list's length differs; 7 to 11; 13. */
uint64_t fallowroe_write(uint8_t kind, const uint16_t *loads, size_t loads_length, const int16_t *surpluses, size_t surpluses_length,
                         const uint16_t *costs, size_t costs_length, uint8_t *job, size_t job_room, uint64_t values[3]);

/* Writes the plan of a job at the front of `plan`. Values: finish, moves, tight link. The tight link is the lowest-numbered one with the greatest
 * items * cost, and link 0 where there are no moves: in kinds 1 and 2 it holds the ring up, and its items * cost is the finish. Refusals 1 to 13. It takes
 * about 1 KiB of stack on x86-64; scripts/stack measures it, and the other functions' stack. */
uint64_t fallowroe_plan(const uint8_t *job, size_t job_length, uint8_t *plan, size_t plan_room, uint64_t values[3]);

/* As fallowroe_plan, and the load of each of the n boards at a tick in the first n places of `list`.
 * Values: finish, moves, tight link. Refusals 1 to 14. */
uint64_t fallowroe_loads(const uint8_t *job, size_t job_length, uint32_t tick, uint8_t *plan, size_t plan_room, uint32_t *list,
                         size_t list_places, uint64_t values[3]);

/* As fallowroe_plan, and where the columns are when the plan has been played. Columns are numbered from 0, board 0's first; a forward send takes a board's
 * last column and the next board puts it first, a back send takes the first and the other board puts it last. With N columns in all (the total of
 * the loads, at most FALLOWROE_MOST_COLUMNS) the first N places of `list` are the boards' columns in their order, board 0's first: board i has as
 * many of them as its load after. Values: finish, moves, tight link. Refusals 1 to 13; 16 where list_places is below N. */
uint64_t fallowroe_columns(const uint8_t *job, size_t job_length, uint8_t *plan, size_t plan_room, uint32_t *list, size_t list_places,
                           uint64_t values[3]);

#ifdef __cplusplus
}
#endif

#endif
