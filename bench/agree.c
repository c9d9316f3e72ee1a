/* Holds the library to plain C on many jobs, whole and damaged: the writer's bytes, the check, the plan in rooms that fit, do not fit or have
   bytes to spare, the loads at a tick counted from the plan's records, and the columns in lists that fit, do not fit or have places to spare.
   Prints what was compared and how much of it differed. */
#include "../include/fallowroe.h"
#include "plain.h"

#include <stdio.h>
#include <string.h>

enum { JOBS = 100000, ROOM = 20000, MOST_BOARDS = 128, COLUMNS = FALLOWROE_MOST_COLUMNS };

static uint16_t loads[MOST_BOARDS], costs[MOST_BOARDS];
static int16_t surpluses[MOST_BOARDS];
static uint8_t job[FALLOWROE_LONGEST_JOB + 8], written[FALLOWROE_LONGEST_JOB + 8], ours[ROOM], theirs[ROOM];
static uint32_t our_list[COLUMNS], their_list[COLUMNS];
static unsigned refusals[17], sends, rings, columns, differences;

static uint32_t seed = 1;

static unsigned draw(unsigned below)
{
    seed ^= seed << 13, seed ^= seed >> 17, seed ^= seed << 5;
    return seed % below;
}

static void hold(int right) { differences += !right; }

static void put_half(uint8_t *at, int x) { at[0] = x >> 8, at[1] = x; }

/* A ring of n boards: loads that are small, mostly 1 or near the limit, items to go from board to board, costs alike or not. */
static void draw_ring(int kind, int n)
{
    int style = draw(3), common = 1 + draw(8000);
    for (int i = 0; i < n; i++) {
        loads[i] = style == 0 ? 1 + draw(6) : style == 1 ? 1 + draw(6) / 5 * draw(40) : 4095 - draw(60);
        costs[i] = kind == 2 ? 1 + draw(draw(2) ? 9 : 8000) : common;
        surpluses[i] = 0;
    }
    for (int k = draw(2 * n); k > 0; k--) {
        int from = draw(n), to = draw(n), items = 1 + draw(8);
        if (loads[from] - surpluses[from] - items < 1 || loads[to] - surpluses[to] + items > 4095) continue;
        surpluses[from] += items;
        surpluses[to] -= items;
    }
}

/* The ring's job by hand, to which the writer is held. */
static size_t put_job(int kind, int n)
{
    uint64_t values[3];
    size_t length = 7 + 6 * n;
    job[0] = 'H', job[1] = 'O', job[2] = 'P', job[3] = 0, job[4] = 1, job[5] = kind, job[6] = n;
    for (int i = 0; i < n; i++) {
        put_half(job + 7 + 6 * i, loads[i]);
        put_half(job + 9 + 6 * i, surpluses[i]);
        put_half(job + 11 + 6 * i, costs[i]);
    }
    hold(fallowroe_write(kind, loads, n, surpluses, n, costs, n, written, length, values) == 0 && values[0] == length);
    hold(memcmp(job, written, length) == 0);
    hold(fallowroe_write(kind, loads, n, surpluses, n, costs, n, written, length - 1, values) == 13);
    return length;
}

/* The job with some of its bytes changed, cut, or with bytes after it. */
static size_t damaged(size_t length)
{
    static const int edges[] = {0, 1, 2, 128, 129, 4095, 4096, 8000, 8001, 32767, 32768, 65535};
    for (int k = draw(3); k > 0; k--) job[draw(length)] = draw(256);
    if (draw(2)) put_half(job + draw(length - 1), edges[draw(12)]);
    if (draw(4) == 0) length = draw(length + 8);
    return length;
}

/* Each board's load at a tick, counted from the plan, beside the query's. */
static void hold_loads(int n, uint64_t moves, size_t length, uint32_t tick)
{
    static uint8_t plan[ROOM];
    uint32_t list[MOST_BOARDS + 1], held[MOST_BOARDS];
    uint64_t values[3];
    for (int i = 0; i < n; i++) held[i] = job[7 + 6 * i] * 256 + job[8 + 6 * i];
    for (uint64_t k = 0; k < moves; k++) {
        const uint8_t *at = ours + 15 + 6 * k;
        uint32_t start = (uint32_t)at[2] << 24 | at[3] << 16 | at[4] << 8 | at[5], cost = job[11 + 6 * at[0]] * 256 + job[12 + 6 * at[0]];
        int next = (at[0] + 1) % n, from = at[1] ? next : at[0], to = at[1] ? at[0] : next;
        if (start < tick) held[from]--;
        if (start + cost <= tick) held[to]++;
    }
    list[n] = 170;
    hold(fallowroe_loads(job, length, tick, plan, sizeof plan, list, n, values) == 0 && list[n] == 170);
    hold(memcmp(list, held, n * sizeof held[0]) == 0 && memcmp(plan, ours, 15 + 6 * moves) == 0);
    hold(fallowroe_loads(job, length, tick, plan, sizeof plan, list, n - 1, values) == 14);
}

/* One job in one room and one list of so many places: answers, and every byte and every place up to one more than are lent. */
static uint64_t hold_columns(size_t length, size_t room, size_t places)
{
    uint64_t mine[3] = {7, 7, 7}, plain[3] = {7, 7, 7}, code;
    size_t all = (places < COLUMNS ? places + 1 : places) * sizeof our_list[0];
    memset(ours, 170, sizeof ours);
    memset(theirs, 170, sizeof theirs);
    memset(our_list, 170, all);
    memset(their_list, 170, all);
    code = fallowroe_columns(job, length, ours, room, our_list, places, mine);
    hold(code == plain_columns(job, length, theirs, room, their_list, places, plain));
    hold(memcmp(mine, plain, sizeof plain) == 0 && memcmp(ours, theirs, sizeof ours) == 0 && memcmp(our_list, their_list, all) == 0);
    if (fallowroe_number(code) == 16) refusals[16]++;
    return code;
}

/* The columns of an accepted job whose plan has so many sends: a list that fits, one with a place to spare, one that is a place short. */
static void hold_lists(size_t length, uint64_t moves)
{
    size_t total = 0, room = 15 + 6 * moves;
    for (int i = 0; i < job[6]; i++) total += job[7 + 6 * i] * 256 + job[8 + 6 * i];
    columns += total;
    hold(hold_columns(length, room, total) == 0);
    hold(hold_columns(length, room, total - 1) == 16);
    hold(hold_columns(length, room - 1, total - 1) == 13);
    if (total < COLUMNS) hold(hold_columns(length, ROOM, total + 1) == 0);
}

/* One job in one room: answers and every byte of the buffers. */
static uint64_t hold_plan(size_t length, size_t room, uint64_t mine[3])
{
    uint64_t plain[3] = {7, 7, 7}, code;
    mine[0] = mine[1] = mine[2] = 7;
    memset(ours, 170, sizeof ours);
    memset(theirs, 170, sizeof theirs);
    code = fallowroe_plan(job, length, ours, room, mine);
    hold(code == plain_plan(job, length, theirs, room, plain));
    hold(memcmp(mine, plain, sizeof plain) == 0 && memcmp(ours, theirs, sizeof ours) == 0);
    refusals[fallowroe_number(code) % 16]++;
    return code;
}

static void hold_job(size_t length)
{
    uint64_t values[3], more[3], checked[3], code = hold_plan(length, ROOM - draw(2) * draw(ROOM), values);
    uint64_t check = fallowroe_check(job, length, checked);
    hold(check == (fallowroe_number(code) < 12 ? code : 0));
    if (code != 0) {
        uint64_t again = hold_columns(length, ROOM, draw(4));
        hold(check == 0 || again == check);
        return;
    }
    hold(checked[0] == job[5] && checked[1] == job[6]);
    rings++, sends += values[1];
    hold_loads(job[6], values[1], length, draw(2) ? draw(values[0] + 2) : draw(4294967295u));
    hold(hold_plan(length, 15 + 6 * values[1], more) == 0);
    hold(hold_plan(length, 14 + 6 * values[1], more) == 13);
    hold_lists(length, values[1]);
}

int main(void)
{
    for (int k = 0; k < JOBS; k++) {
        int kind = 1 + k % 3, n = 2 + draw(draw(20) == 0 ? 127 : 11);
        draw_ring(kind, n);
        hold_job(k % 2 ? put_job(kind, n) : damaged(put_job(kind, n)));
    }
    printf("rings %u, sends %u, columns %u\n", rings, sends, columns);
    for (int number = 1; number < 14; number++) printf("refused %d: %u\n", number, refusals[number]);
    printf("refused 16: %u\n", refusals[16]);
    printf("differences %u\n", differences);
    return differences != 0;
}
