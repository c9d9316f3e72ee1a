/* The reader's checks in document 01's order; then each send's start from the ends of the link before it, which are kept in an array. It
   is there to time the library against and to compare it with, and nothing of it is proved. */
#include "plain.h"

enum { MOST_BOARDS = 128, MOST_ITEMS = 64 * 4094 };

/* A ring that was read, and the numbers of its plan. s is S, the sum of the surpluses up to each board; f is what each link carries, and at the
   place of its first record. */
struct ring {
    int kind, n;
    int load[MOST_BOARDS], surplus[MOST_BOARDS], cost[MOST_BOARDS], s[MOST_BOARDS], f[MOST_BOARDS];
    size_t at[MOST_BOARDS];
    uint64_t finish, moves;
    int rounds, tight;
};

static uint64_t refused(unsigned number, unsigned board) { return number + 256 * (uint64_t)board; }

static int size(int x) { return x < 0 ? -x : x; }

static int half(const uint8_t *at) { return at[0] * 256 + at[1]; }

static uint64_t read_head(const uint8_t *job, size_t length, struct ring *r)
{
    if (length < 7) return refused(1, 0);
    if (job[0] != 'H' || job[1] != 'O' || job[2] != 'P') return refused(2, 0);
    if (half(job + 3) != 1) return refused(3, 0);
    r->kind = job[5];
    if (r->kind < 1 || r->kind > 3) return refused(4, 0);
    r->n = job[6];
    if (r->n < 2 || r->n > MOST_BOARDS) return refused(5, 0);
    return length == 7 + 6 * (size_t)r->n ? 0 : refused(6, 0);
}

static uint64_t read_boards(const uint8_t *job, struct ring *r)
{
    int i, sum = 0;
    for (i = 0; i < r->n; i++) {
        const uint8_t *at = job + 7 + 6 * i;
        int load = half(at), surplus = (int16_t)half(at + 2), cost = half(at + 4);
        if (load < 1 || load > 4095) return refused(7, i);
        if (load - surplus < 1 || load - surplus > 4095) return refused(8, i);
        if (cost < 1 || cost > 8000) return refused(9, i);
        sum += surplus;
        r->load[i] = load, r->surplus[i] = surplus, r->cost[i] = cost, r->s[i] = sum;
    }
    if (r->kind != 2)
        for (i = 1; i < r->n; i++)
            if (r->cost[i] != r->cost[0]) return refused(10, i);
    return sum == 0 ? 0 : refused(11, 0);
}

static void put_word(uint8_t *at, uint32_t x)
{
    at[0] = x >> 24, at[1] = x >> 16, at[2] = x >> 8, at[3] = x;
}

static uint8_t *put_send(uint8_t *at, int link, int direction, uint32_t start)
{
    at[0] = link, at[1] = direction;
    put_word(at + 2, start);
    return at + 6;
}

/* Kinds 1 and 2: round the ring, from the link after one that carries nothing. */
static void one_way(const struct ring *r, uint8_t *plan)
{
    static uint32_t ends[2][MOST_ITEMS + 1];
    uint32_t *before = ends[0], *own = ends[1], *other;
    int idle = 0, k, j;
    while (r->f[idle] != 0) idle++;
    for (k = 1; k < r->n; k++) {
        int i = (idle + k) % r->n, load = r->load[i], count = r->f[i];
        uint32_t cost = r->cost[i], start = 0;
        uint8_t *out = plan + r->at[i];
        for (j = 1; j <= count; j++) {
            if (j > load && before[j - load] > start) start = before[j - load];
            out = put_send(out, i, 0, start);
            start += cost;
            own[j] = start;
        }
        other = before, before = own, own = other;
    }
}

/* Kind 3: forward in the first rounds, back in the last. */
static void two_way(const struct ring *r, uint32_t rounds, uint8_t *plan)
{
    uint32_t cost = r->cost[0];
    int i, j;
    for (i = 0; i < r->n; i++) {
        int back = r->f[i] < 0, count = size(r->f[i]);
        uint32_t start = back ? (rounds - count) * cost : 0;
        uint8_t *out = plan + r->at[i];
        for (j = 0; j < count; j++, start += cost) out = put_send(out, i, back, start);
    }
}

/* What each link carries, and the plan's numbers, where it has room. */
static uint64_t outline(const uint8_t *job, size_t job_length, size_t plan_room, struct ring *r)
{
    int i, low = 0, high = 0, offset;
    uint64_t fault = read_head(job, job_length, r);
    if (fault == 0) fault = read_boards(job, r);
    if (fault != 0) return fault;
    /* S of the last board is 0 */
    for (i = 0; i < r->n; i++) {
        if (r->s[i] < low) low = r->s[i];
        if (r->s[i] > high) high = r->s[i];
    }
    offset = r->kind == 3 ? low + (high - low) / 2 : low;
    r->rounds = (high - low + 1) / 2;
    r->moves = r->finish = 0;
    r->tight = 0;
    for (i = 0; i < r->n; i++) {
        uint64_t time;
        r->f[i] = r->s[i] - offset;
        r->at[i] = 15 + 6 * r->moves;
        r->moves += size(r->f[i]);
        time = (uint64_t)size(r->f[i]) * r->cost[i];
        if (time > r->finish) r->finish = time, r->tight = i;
        if (size(r->surplus[i]) > r->rounds) r->rounds = size(r->surplus[i]);
    }
    if (r->kind == 3) r->finish = (uint64_t)r->rounds * r->cost[0];
    if (r->finish > 4294967295u) return refused(12, 0);
    return 15 + 6 * r->moves > plan_room ? refused(13, 0) : 0;
}

static void put_plan(const struct ring *r, uint8_t *plan, uint64_t values[3])
{
    plan[0] = 'P', plan[1] = 'L', plan[2] = 'N', plan[3] = 0, plan[4] = 1, plan[5] = r->kind, plan[6] = r->n;
    put_word(plan + 7, r->finish);
    put_word(plan + 11, r->moves);
    if (r->kind == 3) two_way(r, r->rounds, plan);
    else one_way(r, plan);
    values[0] = r->finish, values[1] = r->moves, values[2] = r->tight;
}

uint64_t plain_plan(const uint8_t *job, size_t job_length, uint8_t *plan, size_t plan_room, uint64_t values[3])
{
    struct ring r;
    uint64_t fault = outline(job, job_length, plan_room, &r);
    if (fault == 0) put_plan(&r, plan, values);
    return fault;
}

/* So many columns from the first on; the place after them. */
static uint32_t *put_run(uint32_t *list, int first, int count)
{
    for (int k = 0; k < count; k++) list[k] = first + k;
    return list + count;
}

/* Board by board its stretch: from the loads of the boards before it, less f of the link before it; past the last column from 0 on. */
static void put_columns(const struct ring *r, int total, uint32_t *list)
{
    int i, before = 0;
    for (i = 0; i < r->n; i++) {
        int begin = (before - r->f[(i + r->n - 1) % r->n]) % total, first = begin < 0 ? begin + total : begin;
        int count = r->load[i] - r->surplus[i], up = count < total - first ? count : total - first;
        list = put_run(list, first, up);
        list = put_run(list, 0, count - up);
        before += r->load[i];
    }
}

uint64_t plain_columns(const uint8_t *job, size_t job_length, uint8_t *plan, size_t plan_room, uint32_t *list, size_t list_places,
                       uint64_t values[3])
{
    struct ring r;
    int i, total = 0;
    uint64_t fault = outline(job, job_length, plan_room, &r);
    if (fault != 0) return fault;
    for (i = 0; i < r.n; i++) total += r.load[i];
    if (list_places < (size_t)total) return refused(16, 0);
    put_plan(&r, plan, values);
    put_columns(&r, total, list);
    return 0;
}
