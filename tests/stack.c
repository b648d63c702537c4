/*
 * The deepest byte of stack that each call touches, measured: every call runs on a stack of its own that is painted before. 16 tasks and
 * 256 objects, with one field and under head 7 with 8, random accesses; then the recording whole, cut short and with a byte changed.
 * `tests/stack` builds and runs it.
 */
#define _XOPEN_SOURCE 700
#include <stdio.h>
#include <stdlib.h>
#include <string.h>
#include <ucontext.h>

#include "wekhtsila.h"

enum { TASKS = 16, OBJECTS = 256, FIELDS = 8, CELLS = OBJECTS * FIELDS, ACCESSES = 4000, LOG = 65536, STACK = 262144, PAINT = 0xa5 };

static uint16_t halves[WK_HALVES];
static uint32_t words[WK_WORDS], memory[CELLS], memory_2[CELLS], starts[CELLS];
static uint8_t owners[OBJECTS], logs[TASKS][LOG], joined[TASKS * LOG], recording[TASKS * LOG], out[TASKS * LOG];
static size_t log_len[TASKS], ends[TASKS], places[WK_PLACES], answer[WK_ANSWER], size, joined_len, task, object, field, head;
/* Of the present recording; one field is that of wk_open. */
static size_t fields, cells;
static uint32_t sort;

static uint8_t stack[STACK];
static ucontext_t back, call;
static unsigned long seed = 1;

static size_t below(size_t n)
{
    seed = seed * 6364136223846793005ul + 1442695040888963407ul;
    return (seed >> 33) % n;
}

static void none(void) {}
static void open_(void)
{
    wk_open(TASKS, OBJECTS, owners, OBJECTS, starts, cells, memory, cells, recording, sizeof recording, halves, words, answer);
}
static void open_fields(void)
{
    wk_open_fields(TASKS, OBJECTS, fields, owners, OBJECTS, starts, cells, memory, cells, recording, sizeof recording, halves, words,
                   answer);
}
static void access_(void)
{
    wk_access(halves, words, task, object, field, sort, 7, memory, cells, logs[task] + log_len[task], LOG - log_len[task], answer);
}
static void section(void) { wk_section(halves, words, task, logs[task], log_len[task], out, sizeof out, answer); }
static void pack(void) { wk_pack(halves, words, joined, joined_len, ends, TASKS, recording + head, sizeof recording - head, answer); }
static void check(void) { wk_check(recording, size, answer); }
static void body(void) { wk_body(recording, size, task, out, sizeof out, answer); }
static void body_check(void) { wk_body_check(recording, size, task, answer); }
static void replay_open(void) { wk_replay_open(recording, size, memory, cells, places, answer); }
static void ready(void) { wk_ready(places, recording, size, answer); }
static void finished(void) { wk_finished(places, recording, size, answer); }
static void schedule(void) { wk_schedule(places, recording, size, out, sizeof out); }
static void step(void) { wk_step(places, recording, size, memory, cells, task, answer); }
static void to_end(void) { wk_replay_to_end(recording, size, memory, cells, answer); }
static void playable(void) { wk_playable(recording, size, out, sizeof out, answer); }
static void same(void) { wk_same_outcome(recording, size, recording, size, memory, cells, memory_2, cells, answer); }

enum { NONE, OPEN, OPEN_FIELDS, ACCESS, SECTION, PACK, CHECK, BODY, BODY_CHECK, REPLAY_OPEN, READY, FINISHED, SCHEDULE, STEP, TO_END,
       PLAYABLE, SAME, CALLS };
static const struct { const char *name; void (*run)(void); } calls[CALLS] = {
    {"", none}, {"wk_open", open_}, {"wk_open_fields", open_fields}, {"wk_access", access_}, {"wk_section", section},
    {"wk_pack", pack}, {"wk_check", check}, {"wk_body", body}, {"wk_body_check", body_check}, {"wk_replay_open", replay_open},
    {"wk_ready", ready}, {"wk_finished", finished}, {"wk_schedule", schedule}, {"wk_step", step}, {"wk_replay_to_end", to_end},
    {"wk_playable", playable}, {"wk_same_outcome", same}};
static size_t deepest[CALLS];

static void on_stack(int which)
{
    size_t low = 0;
    memset(stack, PAINT, STACK);
    getcontext(&call);
    call.uc_stack.ss_sp = stack;
    call.uc_stack.ss_size = STACK;
    call.uc_link = &back;
    makecontext(&call, calls[which].run, 0);
    swapcontext(&back, &call);
    while (low < STACK && stack[low] == PAINT)
        low++;
    if (deepest[which] < STACK - low)
        deepest[which] = STACK - low;
}

static void read_all(void)
{
    on_stack(CHECK);
    for (task = 0; task <= TASKS; task++) {
        on_stack(BODY);
        on_stack(BODY_CHECK);
    }
    on_stack(TO_END);
    on_stack(PLAYABLE);
    on_stack(SAME);
    on_stack(REPLAY_OPEN);
    on_stack(SCHEDULE);
    for (;;) {
        on_stack(FINISHED);
        task = below(TASKS);
        on_stack(STEP);
        on_stack(READY);
        if ((task = answer[WK_READY_LOWEST]) == WK_NONE_READY)
            break;
        on_stack(STEP);
    }
}

/* A recording from its opening on, read whole, cut and changed. */
static void all(int opening, size_t of_object)
{
    size_t whole;
    fields = of_object;
    cells = OBJECTS * fields;
    joined_len = 0;
    memset(log_len, 0, sizeof log_len);
    on_stack(opening);
    head = answer[WK_OPEN_WRITTEN];
    for (int i = 0; i < ACCESSES; i++) {
        task = below(TASKS);
        object = below(i % 2 ? OBJECTS : 4);
        field = below(fields);
        sort = below(3) == 0;
        on_stack(ACCESS);
        log_len[task] += answer[WK_ACCESS_WRITTEN];
    }
    for (task = 0; task < TASKS; task++) {
        on_stack(SECTION);
        memcpy(joined + joined_len, logs[task], log_len[task]);
        ends[task] = joined_len += log_len[task];
    }
    on_stack(PACK);
    size = whole = head + answer[WK_PACK_WRITTEN];
    read_all();
    for (int i = 0; i < 200; i++) {
        size = below(whole + 1);
        on_stack(CHECK);
        on_stack(REPLAY_OPEN);
        on_stack(SAME);
        size = whole;
        recording[below(whole)] ^= 1 << below(8);
        on_stack(CHECK);
        on_stack(PLAYABLE);
        on_stack(REPLAY_OPEN);
        on_stack(STEP);
    }
}

int main(void)
{
    for (object = 0; object < OBJECTS; object++)
        owners[object] = object % TASKS;
    on_stack(NONE);
    all(OPEN, 1);
    all(OPEN_FIELDS, FIELDS);
    /* What the thread's own start takes is not the call's; the wrappers above are a jump or a frame of a few words. */
    for (int i = 1; i < CALLS; i++)
        printf("%s %zu\n", calls[i].name, deepest[i] - deepest[NONE]);
    return 0;
}
