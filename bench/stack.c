/* The bytes of stack that the C functions use. Each is called on a stack of its own that was painted; what is no longer paint was used, the return
   address among it. That is measured for the jobs below and shown for no other. */
#include "../include/fallowroe.h"

#include <stdio.h>
#include <string.h>

enum { STACK = 65536, PAINT = 165, LIMIT = 2048, BOARDS = 128, ROOM = 15 + 6 * 1000000, COLUMNS = 128 * 4095, ARGUMENTS = 10, TICK = 3 };

static uint8_t stack[STACK] __attribute__((aligned(16)));
static uint8_t job[FALLOWROE_LONGEST_JOB + 1], plan[ROOM];
static uint16_t loads[BOARDS], costs[BOARDS];
static int16_t surpluses[BOARDS];
static uint32_t list[COLUMNS];
static uint64_t values[3];
static size_t boards, length, room;
static uint8_t kind;

/* Calls a function on another stack, whose first bytes hold the four arguments that come after the six in registers. */
uint64_t called_on(void *top, const void *function, const uint64_t arguments[ARGUMENTS]);
__asm__(".text\n"
        "called_on:\n"
        "    push %rbp\n"
        "    mov %rsp, %rbp\n"
        "    mov %rdi, %rsp\n"
        "    mov %rsi, %rax\n"
        "    mov %rdx, %r10\n"
        "    push 72(%r10)\n"
        "    push 64(%r10)\n"
        "    push 56(%r10)\n"
        "    push 48(%r10)\n"
        "    mov 40(%r10), %r9\n"
        "    mov 32(%r10), %r8\n"
        "    mov 24(%r10), %rcx\n"
        "    mov 16(%r10), %rdx\n"
        "    mov 8(%r10), %rsi\n"
        "    mov 0(%r10), %rdi\n"
        "    call *%rax\n"
        "    mov %rbp, %rsp\n"
        "    pop %rbp\n"
        "    ret\n"
        ".section .note.GNU-stack, \"\", @progbits\n"
        ".text\n");

/* The bytes that a call uses, and the refusal's number in its code, or 0. */
struct use {
    size_t bytes;
    unsigned number;
};

static struct use used(const void *function, const uint64_t arguments[ARGUMENTS])
{
    size_t clean = 0;
    memset(stack, PAINT, sizeof stack);
    uint64_t code = called_on(stack + STACK, function, arguments);
    while (clean < STACK && stack[clean] == PAINT) clean++;
    return (struct use){STACK - 32 - clean, fallowroe_number(code)};
}

static uint64_t place(const void *at) { return (uint64_t)at; }

static struct use use_of_plan(void)
{
    return used((void *)fallowroe_plan, (uint64_t[ARGUMENTS]){place(job), length, place(plan), room, place(values)});
}

static struct use use_of_check(void) { return used((void *)fallowroe_check, (uint64_t[ARGUMENTS]){place(job), length, place(values)}); }

static struct use use_of_write(void)
{
    return used((void *)fallowroe_write, (uint64_t[ARGUMENTS]){kind, place(loads), boards, place(surpluses), boards, place(costs), boards,
                                                               place(plan), room, place(values)});
}

static struct use use_of_loads(void)
{
    return used((void *)fallowroe_loads,
                (uint64_t[ARGUMENTS]){place(job), length, TICK, place(plan), room, place(list), COLUMNS, place(values)});
}

static struct use use_of_columns(void)
{
    return used((void *)fallowroe_columns, (uint64_t[ARGUMENTS]){place(job), length, place(plan), room, place(list), COLUMNS, place(values)});
}

/* The head of a job of n boards, with room for its plan. */
static void begin(int of_kind, int n)
{
    static const uint8_t mark[] = {'H', 'O', 'P', 0, 1};
    kind = of_kind, boards = n, length = 7 + 6 * n, room = ROOM;
    memcpy(job, mark, sizeof mark);
    job[5] = of_kind, job[6] = n;
}

static void put_board(int i, int load, int surplus, int cost)
{
    uint8_t *at = job + 7 + 6 * i;
    at[0] = load >> 8, at[1] = load, at[2] = surplus >> 8, at[3] = surplus, at[4] = cost >> 8, at[5] = cost;
    loads[i] = load, surpluses[i] = surplus, costs[i] = cost;
}

static void case_a(void)
{
    begin(2, 4);
    put_board(0, 5, 3, 2);
    put_board(1, 1, 0, 3);
    put_board(2, 1, -2, 1);
    put_board(3, 2, -1, 4);
}

/* Board 0's items go down a chain of boards of load 1 with falling costs: each link waits for all that are behind it. */
static void deep_waits(void)
{
    begin(2, BOARDS);
    for (int i = 0; i < BOARDS; i++) put_board(i, 1, 0, 400 - 3 * i);
    put_board(0, 4095, 4094, 400);
    put_board(BOARDS - 1, 1, -4094, 19);
}

static void two_way(void)
{
    begin(3, BOARDS);
    for (int i = 0; i < BOARDS; i++) put_board(i, i < 64 ? 4095 : 1, i < 64 ? 100 : -100, 7);
}

/* A job of 128 boards that is refused with this number, for its last board where a board is at fault. No job is refused with 12. */
static void refused_with(unsigned number)
{
    int last = BOARDS - 1;
    begin(1, BOARDS);
    for (int i = 0; i < BOARDS; i++) put_board(i, 2, 0, 7);
    switch (number) {
    case 1: length = 6; break;
    case 2: job[2] = 'Q'; break;
    case 3: job[4] = 9; break;
    case 4: job[5] = 9; break;
    case 5: job[6] = 129; break;
    case 6: length++; break;
    case 7: put_board(last, 0, 0, 7); break;
    case 8: put_board(last, 2, 2, 7); break;
    case 9: put_board(last, 2, 0, 0); break;
    case 10: put_board(last, 2, 0, 8); break;
    case 11: put_board(last, 2, 1, 7); break;
    case 13: room = 14; break;
    }
}

/* The most that each of the other functions used so far. */
static size_t most_check, most_write, most_loads, most_columns;

static void raise_to(size_t *most, size_t bytes)
{
    if (*most < bytes) *most = bytes;
}

/* 1 where one of the other functions answers another number than this: the checker knows nothing of room, and the writer nothing of bytes that are no list. */
static int others_differ(unsigned number)
{
    struct use check = use_of_check(), loads_then = use_of_loads(), columns_then = use_of_columns(), write = use_of_write();
    raise_to(&most_check, check.bytes);
    raise_to(&most_loads, loads_then.bytes);
    raise_to(&most_columns, columns_then.bytes);
    raise_to(&most_write, write.bytes);
    return check.number != (number == 13 ? 0 : number) || loads_then.number != number || columns_then.number != number ||
           (number > 6 && write.number != number);
}

/* Measures all functions with the job at hand and prints the planner's figure: 1 where it is above the limit, where a plan has another number of moves,
   or where a function answers another number. */
static int measured(const char *name, unsigned number, uint64_t moves)
{
    plan[0] = 0;
    values[1] = 0;
    struct use u = use_of_plan();
    int other = u.number != number || values[1] != moves || (number == 0 && plan[0] != 'P') || others_differ(number), much = u.bytes > LIMIT;
    printf("fallowroe_plan, %-28s %6zu%s%s\n", name, u.bytes, other ? " ANOTHER ANSWER" : "", much ? " TOO MUCH" : "");
    return other || much;
}

int main(void)
{
    static char name[] = "a job refused with 00";
    int wrong = 0;
    case_a();
    wrong += measured("case A", 0, 7);
    deep_waits();
    wrong += measured("128 boards, deep waits", 0, 127 * 4094);
    two_way();
    wrong += measured("128 boards, two way", 0, 2 * 100 * 32 * 32);
    for (unsigned number = 1; number <= 13; number++) {
        if (number == 12) continue;
        refused_with(number);
        name[sizeof name - 3] = number < 10 ? ' ' : '1';
        name[sizeof name - 2] = '0' + number % 10;
        wrong += measured(name, number, 0);
    }
    printf("the most of all these jobs: fallowroe_check %zu, fallowroe_write %zu, fallowroe_loads %zu, fallowroe_columns %zu\n", most_check, most_write,
           most_loads, most_columns);
    return wrong != 0;
}
