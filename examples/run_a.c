/*
 * Run A of document 01 from C: two tasks and two objects, four accesses recorded, packed and checked, then played back, always the
 * lowest ready task first. It writes what the replay program writes of that recording.
 *
 * All memory is the caller's. A box would keep `state`, `memory` and the logs for as long as it records, and the rest on the stack.
 */
#include <stdio.h>
#include <stdlib.h>
#include <string.h>

#include "wekhtsila.h"

enum { TASKS = 2, OBJECTS = 2, LOG_BYTES = 256, RECORDING_BYTES = 1024 };

struct state {
    uint16_t halves[WK_HALVES];
    uint32_t words[WK_WORDS];
};

static struct state state;
static uint32_t memory[OBJECTS];
static uint8_t logs[TASKS][LOG_BYTES];
static size_t log_len[TASKS];
static uint8_t recording[RECORDING_BYTES];
static size_t places[WK_PLACES];

/* Entry 0 of every answer is the number; 0 is accepted. */
static void accepted(const char *call, const size_t answer[WK_ANSWER])
{
    if (answer[0] != WK_ACCEPTED) {
        fprintf(stderr, "%s: refused %zu\n", call, answer[0]);
        exit(1);
    }
}

/* One access; what it writes is appended to its task's log. The library checks the room that is lent, so no test is needed here. */
static void record(size_t task, size_t object, uint32_t sort, uint32_t value)
{
    size_t answer[WK_ANSWER];
    /* wk_open gives each object one field, field 0. */
    wk_access(state.halves, state.words, task, object, 0, sort, value, memory, OBJECTS, logs[task] + log_len[task],
              LOG_BYTES - log_len[task], answer);
    accepted("wk_access", answer);
    log_len[task] += answer[WK_ACCESS_WRITTEN];
}

/* The head is in `recording` already; the sections go after it. Returns the recording's bytes. */
static size_t pack(size_t head)
{
    uint8_t joined[TASKS * LOG_BYTES];
    size_t ends[TASKS], at = 0, answer[WK_ANSWER];
    for (size_t task = 0; task < TASKS; task++) {
        memcpy(joined + at, logs[task], log_len[task]);
        at += log_len[task];
        ends[task] = at;
    }
    wk_pack(state.halves, state.words, joined, at, ends, TASKS, recording + head, sizeof recording - head, answer);
    accepted("wk_pack", answer);
    return head + answer[WK_PACK_WRITTEN];
}

int main(void)
{
    const uint8_t owners[OBJECTS] = {0, 0};
    const uint32_t starts[OBJECTS] = {0, 0};
    size_t answer[WK_ANSWER], steps = 0;

    wk_open(TASKS, OBJECTS, owners, OBJECTS, starts, OBJECTS, memory, OBJECTS, recording, sizeof recording, state.halves, state.words,
            answer);
    accepted("wk_open", answer);
    size_t head = answer[WK_OPEN_WRITTEN];
    record(0, 0, WK_SORT_WRITE, 7);
    record(1, 0, WK_SORT_READ, 0);
    record(0, 0, WK_SORT_READ, 0);
    record(1, 0, WK_SORT_WRITE, 9);
    size_t size = pack(head);
    if (size != 106) {
        fprintf(stderr, "the recording has %zu bytes, not 106\n", size);
        return 1;
    }
    wk_check(recording, size, answer);
    accepted("wk_check", answer);

    wk_replay_open(recording, size, memory, OBJECTS, places, answer);
    accepted("wk_replay_open", answer);
    printf("records %zu\n", answer[WK_REPLAY_OPEN_RECORDS]);
    for (;;) {
        wk_ready(places, recording, size, answer);
        accepted("wk_ready", answer);
        size_t task = answer[WK_READY_LOWEST];
        if (task == WK_NONE_READY)
            break;
        wk_step(places, recording, size, memory, OBJECTS, task, answer);
        accepted("wk_step", answer);
        printf("%zu %zu %c %zu %zu\n", task, answer[WK_STEP_ACCESS], answer[WK_STEP_KIND] == WK_KIND_WRITE ? 'W' : 'R',
               answer[WK_STEP_OBJECT], answer[WK_STEP_VALUE]);
        steps++;
    }
    wk_finished(places, recording, size, answer);
    accepted("wk_finished", answer);
    printf("%s %zu\nmemory", answer[WK_FINISHED_FINISHED] ? "end" : "stuck", steps);
    for (size_t object = 0; object < OBJECTS; object++)
        printf(" %lu", (unsigned long)memory[object]);
    printf("\n");
    return 0;
}
