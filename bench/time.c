/* Times the library's planner and its columns call against the plain ones on the same jobs, in the same run. Both plans are first made in
   buffers filled alike and held to be the same bytes, and both lists the same numbers; they are not cleared between the calls that are timed. */
#include "../include/fallowroe.h"
#include "plain.h"

#include <stdio.h>
#include <string.h>
#include <time.h>

enum { PLACES = 16, APART = 272, SAMPLES = 8, ROOM = 15 + 6 * 1000000, COLUMNS = 128 * 4095 };

typedef uint64_t planner(const uint8_t *, size_t, uint8_t *, size_t, uint64_t *);

static uint8_t job[FALLOWROE_LONGEST_JOB], ours[ROOM], theirs[ROOM];
static uint32_t our_list[COLUMNS], their_list[COLUMNS];

/* The columns calls as planners: each has a list of its own. */
static uint64_t our_columns(const uint8_t *bytes, size_t length, uint8_t *plan, size_t room, uint64_t *values)
{
    return fallowroe_columns(bytes, length, plan, room, our_list, COLUMNS, values);
}

static uint64_t their_columns(const uint8_t *bytes, size_t length, uint8_t *plan, size_t room, uint64_t *values)
{
    return plain_columns(bytes, length, plan, room, their_list, COLUMNS, values);
}

static void put_head(int kind, int n)
{
    job[0] = 'H', job[1] = 'O', job[2] = 'P', job[3] = 0, job[4] = 1, job[5] = kind, job[6] = n;
}

static void put_board(int i, int load, int surplus, int cost)
{
    uint8_t *at = job + 7 + 6 * i;
    at[0] = load >> 8, at[1] = load, at[2] = surplus >> 8, at[3] = surplus, at[4] = cost >> 8, at[5] = cost;
}

/* Case A of document 01. */
static size_t case_a(void)
{
    put_head(2, 4);
    put_board(0, 5, 3, 2);
    put_board(1, 1, 0, 3);
    put_board(2, 1, -2, 1);
    put_board(3, 2, -1, 4);
    return 7 + 6 * 4;
}

/* 10,920 sends, which fill the program's 65,535 bytes: 2,730 items over four links. */
static size_t full_buffer(void)
{
    put_head(2, 6);
    put_board(0, 2731, 2730, 9);
    put_board(1, 1, 0, 7);
    put_board(2, 1, 0, 8);
    put_board(3, 1, 0, 3);
    put_board(4, 1, -2730, 5);
    put_board(5, 1, 0, 1);
    return 7 + 6 * 6;
}

/* 64 boards of load 4,095 shed so many items each to 64 of load 1. In kind 2 the costs fall along the ring, so that each link waits for
   all that are behind it, or are mixed. */
enum costs { ALIKE, FALLING, MIXED };
static size_t half_to_half(int kind, int items, enum costs costs)
{
    put_head(kind, 128);
    for (int i = 0; i < 128; i++)
        put_board(i, i < 64 ? 4095 : 1, i < 64 ? items : -items, costs == ALIKE ? 7 : costs == FALLING ? 400 - 3 * i : 1 + i * 61 % 97);
    return 7 + 6 * 128;
}

/* Board 0's 64 items go down 127 boards of load 1 and costs that fall: each link waits for all that are behind it. */
static size_t small_chain(void)
{
    put_head(2, 128);
    for (int i = 0; i < 128; i++) put_board(i, 1, 0, 400 - 3 * i);
    put_board(0, 65, 64, 400);
    put_board(127, 1, -64, 19);
    return 7 + 6 * 128;
}

/* Board 0's 400 items go down 127 boards of load 2, each cost two less than the one before: a link's sends go at the pace of the link itself, then of
   the one behind it and so on. The last that sends goes at the pace of each of the 127 links that send, and where two of these meet between two sends
   there is an odd step: 253 runs of even steps, the most that was found. */
static size_t most_runs(void)
{
    put_head(2, 128);
    for (int i = 0; i < 128; i++) put_board(i, 2, 0, 255 - 2 * i);
    put_board(0, 401, 400, 255);
    put_board(127, 2, -400, 1);
    return 7 + 6 * 128;
}

/* How many runs of even steps the starts of a link are. */
static int runs_of(int link, const uint8_t *records, const uint8_t *end)
{
    int runs = 0, sends = 0;
    long last = 0, pace = -1;
    for (; records < end; records += 6) {
        long start = (long)records[2] << 24 | records[3] << 16 | records[4] << 8 | records[5];
        if (records[0] != link) continue;
        if (sends++ > 0 && start - last != pace) pace = start - last, runs++;
        last = start;
    }
    return runs;
}

/* N is 524,160 less the items: each board has 4,095 columns, but board 0, which gets so many from the two beside it, half from each; in kind 1 all
   from the one before it. Each item is one send. */
static size_t all_columns(int kind, int items)
{
    int half = kind == 3 ? items / 2 : 0;
    put_head(kind, 128);
    for (int i = 0; i < 128; i++) put_board(i, 4095, 0, 7);
    put_board(127, 4095, items - half, 7);
    put_board(1, 4095, half, 7);
    put_board(0, 4095 - items, -items, 7);
    return 7 + 6 * 128;
}

/* The processor time of one call of so many in a row, in nanoseconds, with the stack lower by so many bytes. */
static double timed(planner *plan, size_t length, uint8_t *buffer, size_t room, int calls, int lower)
{
    volatile uint8_t unused[lower + 1];
    struct timespec began, ended;
    uint64_t values[3];
    unused[0] = 0;
    clock_gettime(CLOCK_PROCESS_CPUTIME_ID, &began);
    for (int k = 0; k < calls; k++) plan(job, length, buffer, room, values);
    clock_gettime(CLOCK_PROCESS_CPUTIME_ID, &ended);
    return ((ended.tv_sec - began.tv_sec) * 1e9 + (ended.tv_nsec - began.tv_nsec)) / calls;
}

/* What both answer and leave: 1 where they differ. */
static int differ(planner *library, planner *c, size_t length, uint64_t values[3])
{
    uint64_t plain[3];
    memset(ours, 170, sizeof ours);
    memset(theirs, 170, sizeof theirs);
    memset(our_list, 170, sizeof our_list);
    memset(their_list, 170, sizeof their_list);
    uint64_t code = library(job, length, ours, sizeof ours, values);
    return code != c(job, length, theirs, sizeof theirs, plain) || code != 0 || memcmp(values, plain, sizeof plain) != 0 ||
           memcmp(ours, theirs, sizeof ours) != 0 || memcmp(our_list, their_list, sizeof our_list) != 0;
}

/* 1 where the two differ; else the times of both are printed, whole and for one of so many items (0: of the sends): the least of several, in the
   mean over several places of the stack, since where a short call's arrays lie in the cache lines changes its time by a fifth. */
static int compare(const char *name, planner *library, planner *c, size_t length, int calls, double items)
{
    uint64_t values[3];
    double mine = 0, plain = 0;
    if (differ(library, c, length, values)) {
        printf("%-28s the two DIFFER\n", name);
        return 1;
    }
    size_t room = 15 + 6 * values[1];
    if (items == 0) items = values[1];
    for (int p = 0; p < PLACES; p++) {
        double least = 0, least_c = 0;
        for (int s = 0; s < SAMPLES; s++) {
            double a = timed(library, length, ours, room, calls, p * APART), b = timed(c, length, theirs, room, calls, p * APART);
            if (s == 0 || a < least) least = a;
            if (s == 0 || b < least_c) least_c = b;
        }
        mine += least / PLACES, plain += least_c / PLACES;
    }
    printf("%-28s %9.0f %12.0f %12.0f %10.2f %8.2f %8.2f\n", name, items, mine, plain, mine / items, plain / items, mine / plain);
    return 0;
}

static int compare_plans(const char *name, size_t length, int calls) { return compare(name, fallowroe_plan, plain_plan, length, calls, 0); }

/* The plan's time is in both: next to nothing with a hundred sends, most of it with a million. */
static int compare_columns(const char *name, size_t length, int calls, double columns)
{
    return compare(name, our_columns, their_columns, length, calls, columns);
}

int main(void)
{
    int wrong = 0;
    printf("%-28s %9s %12s %12s %10s %8s %8s\n", "", "sends", "library, ns", "C, ns", "a send, ns", "in C", "ratio");
    wrong += compare_plans("case A", case_a(), 2000);
    wrong += compare_plans("a full buffer", full_buffer(), 30);
    wrong += compare_plans("one way, costs falling", half_to_half(2, 3, FALLING), 20);
    wrong += compare_plans("one way, costs mixed", half_to_half(2, 3, MIXED), 20);
    wrong += compare_plans("two way", half_to_half(3, 6, ALIKE), 20);
    wrong += compare_plans("one way, costs falling", half_to_half(2, 244, FALLING), 1);
    wrong += compare_plans("one way, costs mixed", half_to_half(2, 244, MIXED), 1);
    wrong += compare_plans("two way", half_to_half(3, 488, ALIKE), 1);
    wrong += compare_plans("a chain of small loads", small_chain(), 30);
    wrong += compare_plans("a link of 253 runs", most_runs(), 5);
    if (runs_of(126, theirs + 15, theirs + 15 + 6 * 127 * 400) != 253) wrong += printf("that link has another number of runs\n") > 0;
    printf("%-28s %9s %12s %12s %10s %8s %8s\n", "", "columns", "library, ns", "C, ns", "one, ns", "in C", "ratio");
    wrong += compare_columns("case A", case_a(), 2000, 9);
    wrong += compare_columns("100 sends", all_columns(1, 100), 2, COLUMNS - 100);
    wrong += compare_columns("4,094 sends, two way", all_columns(3, 4094), 2, COLUMNS - 4094);
    wrong += compare_columns("999,424 sends", half_to_half(2, 244, MIXED), 1, 64 * 4096);
    return wrong;
}
