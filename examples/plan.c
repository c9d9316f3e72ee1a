/* Case A from C: its job is written, checked and planned, and the loads at tick 3 and the columns after the plan are asked. */
#include "fallowroe.h"

#include <stdio.h>

static const uint16_t loads[4] = {5, 1, 1, 2};
static const int16_t surpluses[4] = {3, 0, -2, -1};
static const uint16_t costs[4] = {2, 3, 1, 4};

static uint8_t job[FALLOWROE_LONGEST_JOB];
static uint8_t plan[1024];
static uint32_t list[4], columns[FALLOWROE_MOST_COLUMNS];
static uint64_t values[3];

/* Whether the code is a refusal, which is printed. */
static int refused(uint64_t code)
{
    if (code != 0)
        printf("refused %u board %u\n", fallowroe_number(code), fallowroe_board(code));
    return code != 0;
}

/* A plan's record: link, direction, and the start in four bytes, the highest first. */
static void print_record(const uint8_t *r)
{
    unsigned start = (unsigned)r[2] << 24 | (unsigned)r[3] << 16 | (unsigned)r[4] << 8 | r[5];
    printf("link %u %s start %u\n", r[0], r[1] == 0 ? "forward" : "back", start);
}

/* The largest ring: 128 boards with the greatest load, at rest. Its job is the longest, and it has the most columns. */
static size_t write_largest(void)
{
    static uint16_t most[128], alike[128];
    static int16_t none[128];
    for (int i = 0; i < 128; i++) most[i] = 4095, alike[i] = 1;
    return fallowroe_write(1, most, 128, none, 128, alike, 128, job, sizeof job, values) == 0 ? values[0] : 0;
}

/* Each board's columns: as many as its load after, board 0's first. */
static void print_columns(void)
{
    size_t at = 0;
    for (int i = 0; i < 4; i++) {
        printf("board %d has columns", i);
        for (size_t end = at + loads[i] - surpluses[i]; at < end; at++) printf(" %u", columns[at]);
        printf("\n");
    }
}

int main(void)
{
    if (refused(fallowroe_write(2, loads, 4, surpluses, 4, costs, 4, job, sizeof job, values)))
        return 1;
    size_t length = values[0];
    printf("job of %u bytes\n", (unsigned)length);

    if (refused(fallowroe_check(job, length, values)))
        return 1;
    printf("kind %u boards %u\n", (unsigned)values[0], (unsigned)values[1]);

    if (refused(fallowroe_plan(job, length, plan, sizeof plan, values)))
        return 1;
    printf("finish %u moves %u tight %u\n", (unsigned)values[0], (unsigned)values[1], (unsigned)values[2]);
    for (size_t k = 0; k < values[1]; k++)
        print_record(plan + 15 + 6 * k);

    if (refused(fallowroe_loads(job, length, 3, plan, sizeof plan, list, 4, values)))
        return 1;
    printf("loads at tick 3: %u %u %u %u\n", list[0], list[1], list[2], list[3]);

    /* The columns take a place for each of the 9 items; one place fewer is refused. */
    refused(fallowroe_columns(job, length, plan, sizeof plan, columns, 8, values));
    if (refused(fallowroe_columns(job, length, plan, sizeof plan, columns, 9, values)))
        return 1;
    print_columns();

    /* Board 1 with a load of 0: the code has number and board, and nothing that was lent has changed. */
    job[13] = job[14] = 0;
    refused(fallowroe_loads(job, length, 9, plan, sizeof plan, list, 4, values));
    printf("as before: %u %u %u %u, finish %u\n", list[0], list[1], list[2], list[3], (unsigned)values[0]);

    /* A list for the largest ring, exact and a place short. */
    length = write_largest();
    printf("longest job: %s\n", length == FALLOWROE_LONGEST_JOB ? "as long as the header says" : "of ANOTHER length");
    if (refused(fallowroe_columns(job, length, plan, sizeof plan, columns, FALLOWROE_MOST_COLUMNS, values)))
        return 1;
    printf("last column %u\n", columns[FALLOWROE_MOST_COLUMNS - 1]);
    refused(fallowroe_columns(job, length, plan, sizeof plan, columns, FALLOWROE_MOST_COLUMNS - 1, values));
    return 0;
}
