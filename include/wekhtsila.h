/*
 * The access recorder and the replayer as a C library: crates/linked/out/liblinked.a, made by `rt lib` in crates/linked,
 * for x86-64.
 * docs/FIRMWARE.md has how to build and link, sizes and stack; examples/run_a.c is a whole program. `tests/header` compares this file
 * with the library's sources.
 *
 * Every call puts its answer into `answer`, from its start; the named places below say which entry is which. Entry 0 is always the
 * number: 0 if the call was accepted, else one of WK_ERR_. A refused call answers 0 in its other entries, but for an offset or a task
 * where that is said and for WK_READY_LOWEST, and leaves every buffer as it was; a refused opening also clears the arrays of its state
 * or run. Entries of `answer` that a call does not have are left as they were.
 *
 * Arguments. Numbers and what the buffers hold may be anything: a call refuses what it cannot take, and no argument makes it
 * trap or write outside. Of the buffers a call asks that
 *   - a pointer is good for its length, which counts entries and not bytes, and is aligned for its type;
 *   - a pointer is not null, also where the length is 0: pass the address of anything then;
 *   - a buffer that the call writes (no const) overlaps no other buffer of the same call, `answer` among them;
 *   - nothing else reads or writes a lent buffer until the call returns.
 * The library keeps no pointer after a call. It has no heap, no globals and no thread: calls on different arrays do not know of each
 * other, calls on the same arrays must come one after another.
 */
#ifndef WEKHTSILA_H
#define WEKHTSILA_H

#include <stddef.h>
#include <stdint.h>

#if defined(SIZE_MAX) && SIZE_MAX != UINT64_MAX
#error "the archive is for x86-64, where size_t has 64 bits"
#endif

#ifdef __cplusplus
extern "C" {
#endif

/*
 * Limits. Every object has the same number of fields, and each field of an object is a cell: a value of 32 bits with a state of its own,
 * so that an access to one orders nothing of another. Cells are numbered object by object: cell object * fields + field. A recording
 * that wk_open opened, or one with head WK_KIND_HEAD, has one field for each object, field 0, and the cell is the object.
 */
#define WK_MAX_TASKS 16       /* tasks, numbered from 0 */
#define WK_MAX_OBJECTS 256    /* objects, numbered from 0 */
#define WK_MAX_FIELDS 8       /* fields of an object, numbered from 0 */
#define WK_MAX_CELLS 2048     /* values that a memory has at most: fields of all objects */
#define WK_MAX_ACCESSES 65535 /* accesses of one task */

/* Entries of the arrays that a caller lends. */
#define WK_HALVES 4133 /* uint16_t: the first part of a recorder's state */
#define WK_WORDS 2065  /* uint32_t: the second part */
#define WK_PLACES 67   /* size_t: a replay's run */
#define WK_ANSWER 7    /* size_t: what a call answers */

/* Bytes of output. */
#define WK_HEAD_BYTES(objects) (8 + 5 * (size_t)(objects)) /* wk_open */
#define WK_FIELD_HEAD_BYTES(objects, fields) (10 + (size_t)(objects) * (1 + 4 * (size_t)(fields))) /* wk_open_fields */
#define WK_ACCESS_BYTES 140  /* wk_access: room for any: an ordering for each of 16 tasks and the access */
#define WK_SECTION_BYTES 12  /* wk_section, wk_pack: for each task, and the bytes of its log */
#define WK_ORDERING_BYTES 8
#define WK_READ_BYTES 6         /* a read without its value, which is no longer written */
#define WK_VALUED_READ_BYTES 10 /* a read, where wk_open opened */
#define WK_WRITE_BYTES 10       /* a write there */
#define WK_FIELD_READ_BYTES 12  /* a read, where wk_open_fields opened */
#define WK_FIELD_WRITE_BYTES 12 /* a write there */

/* The number table. */
#define WK_ACCEPTED 0
#define WK_ERR_TASK_RANGE 1   /* tasks are not 1 to 16 */
#define WK_ERR_OBJECT_RANGE 2 /* objects are not 1 to 256 */
#define WK_ERR_ENTRIES 3      /* the owners are not one for each object, or starts or memory not one for each cell */
#define WK_ERR_OWNER_RANGE 4  /* an owner is no task */
#define WK_ERR_NO_TASK 5      /* no such task */
#define WK_ERR_NO_OBJECT 6    /* no such object */
#define WK_ERR_NO_SORT 7      /* neither WK_SORT_READ nor WK_SORT_WRITE */
#define WK_ERR_FULL 8         /* the task has made WK_MAX_ACCESSES */
#define WK_ERR_NO_ROOM 9      /* the output is too short for what would be written */
#define WK_ERR_SHORT 10       /* the bytes end in the middle of a record */
#define WK_ERR_MALFORMED 11   /* a record's kind is unknown, or its length is not that of its kind */
#define WK_ERR_MISPLACED 12   /* a record of this kind is not allowed here, or there are bytes after the last section */
#define WK_ERR_RANGE 13       /* a number in a record is out of range */
#define WK_ERR_IN_BODY 14     /* a section's body is cut short, or has another count of accesses than its section says */
#define WK_ERR_FINISHED 15    /* the task has no access left to play */
#define WK_ERR_HELD 16        /* an ordering before the task's next access is not met yet */
#define WK_ERR_UNSOUND 17     /* the state or run that was passed in is not one that the library made */
#define WK_ERR_NO_ORDER 18    /* no order of all accesses keeps each task's own order and every ordering */
#define WK_ERR_DIFFERS 19     /* the memory differs from the value in the read's record */
#define WK_ERR_NO_FIELD 20    /* fields are not 1 to 8, or no such field */
#define WK_ERR_ENDS 21        /* wk_pack: the ends fall, pass the logs or are not one for each task */

/* The sort of an access. */
#define WK_SORT_READ 0
#define WK_SORT_WRITE 1

/* The class of an accepted access; a refused one has none. */
#define WK_CLASS_NONE 0
#define WK_CLASS_SAME 1        /* rows 1 to 3 */
#define WK_CLASS_UPGRADING 2   /* rows 4 and 5 */
#define WK_CLASS_FENCE 3       /* row 6 */
#define WK_CLASS_CONFLICTING 4 /* rows 7 to 10 */

/*
 * Kinds of records. A step answers that of its access. The head decides which accesses stand behind it: 4 to 6 behind WK_KIND_HEAD, 8 and
 * 9 behind WK_KIND_FIELD_HEAD.
 */
#define WK_KIND_HEAD 1
#define WK_KIND_SECTION 2
#define WK_KIND_ORDERING 3
#define WK_KIND_READ 4 /* without its value: still read, no longer written */
#define WK_KIND_WRITE 5
#define WK_KIND_VALUED_READ 6
#define WK_KIND_FIELD_HEAD 7  /* a head with the number of fields */
#define WK_KIND_FIELD_READ 8  /* a read with its field and value */
#define WK_KIND_FIELD_WRITE 9 /* a write with its field */

/*
 * What may be looked at in the arrays of a state or a run. All else in them is the library's own. Nothing in them is for a caller to
 * write: a call refuses arrays that mean nothing with WK_ERR_UNSOUND, but numbers that happen to mean another state are taken.
 * The arrays hold no addresses, so they may be copied, kept and put back.
 */
#define WK_HALVES_TASKS 0     /* halves[0]: tasks */
#define WK_HALVES_OBJECTS 1   /* halves[1]: objects */
#define WK_HALVES_FIELDS 2    /* halves[2]: 0 where wk_open opened, else the fields of each object */
#define WK_HALVES_DONE 5      /* halves[5 + task]: accesses that it has made */
#define WK_HALVES_CASE 37     /* halves[37 + cell]: 0 write-held, 1 read-held, 2 shared */
#define WK_HALVES_HOLDER 2085 /* halves[2085 + cell]: the task that holds it, where it is not shared */
#define WK_PLACES_TASKS 0     /* places[0]: tasks */
#define WK_PLACES_OBJECTS 1   /* places[1]: objects */
#define WK_PLACES_FIELDS 2    /* places[2]: 0 behind WK_KIND_HEAD, else the fields of each object */
#define WK_PLACES_DONE(task) (5 + 4 * (size_t)(task))  /* accesses that a task has played */
#define WK_PLACES_COUNT(task) (6 + 4 * (size_t)(task)) /* accesses that its section has */

/* ---- Making a recording ---- */

/*
 * Opens a recording with this number of tasks and objects, each with one field: sets the memory to the starting values, writes the head
 * to the start of `out` (WK_HEAD_BYTES), and puts the state into the arrays. `owners`, `starts` and `memory` have one entry for each
 * object.
 * Refused with 1, 2, 3, 4, 9 in this order; the arrays are then all zero, which no later call takes.
 */
#define WK_OPEN_NUMBER 0
#define WK_OPEN_WRITTEN 1 /* bytes of the head */
void wk_open(size_t tasks, size_t objects, const uint8_t *owners, size_t owners_len, const uint32_t *starts, size_t starts_len,
             uint32_t *memory, size_t memory_len, uint8_t *out, size_t out_len, uint16_t halves[WK_HALVES], uint32_t words[WK_WORDS],
             size_t answer[WK_ANSWER]);

/*
 * The same with this number of fields for each object: `owners` has an entry for each object, `starts` and `memory` have one for each
 * cell, object by object. The head takes WK_FIELD_HEAD_BYTES. An object's cells are all first held by its owner.
 * Refused with 1, 2, 20, 3, 4, 9 in this order; the arrays are then all zero.
 */
#define WK_OPEN_FIELDS_NUMBER 0
#define WK_OPEN_FIELDS_WRITTEN 1 /* bytes of the head */
void wk_open_fields(size_t tasks, size_t objects, size_t fields, const uint8_t *owners, size_t owners_len, const uint32_t *starts,
                    size_t starts_len, uint32_t *memory, size_t memory_len, uint8_t *out, size_t out_len, uint16_t halves[WK_HALVES],
                    uint32_t words[WK_WORDS], size_t answer[WK_ANSWER]);

/*
 * One access: reads or writes `memory` at the object's field, moves the state on, and writes the access with the orderings before it to
 * the start of `out`. The caller appends these bytes to the task's log. The value passed with a read is ignored. Where wk_open opened,
 * the field is 0. `memory` has an entry for each cell.
 * Refused with 17, 5, 6, 20, 7, 8, 3, 9 in this order; state, memory and output are then as before, and the call may be made again.
 */
#define WK_ACCESS_NUMBER 0
#define WK_ACCESS_VALUE 1 /* the value read or written */
#define WK_ACCESS_ROW 2   /* 1 to 10 */
#define WK_ACCESS_CLASS 3 /* WK_CLASS_ */
#define WK_ACCESS_WRITTEN 4
void wk_access(uint16_t halves[WK_HALVES], uint32_t words[WK_WORDS], size_t task, size_t object, size_t field,
               uint32_t sort, uint32_t value, uint32_t *memory, size_t memory_len, uint8_t *out, size_t out_len,
               size_t answer[WK_ANSWER]);

/*
 * One task's section of the finished recording: checks the task's whole log and writes the section record and the log to the start
 * of `out`, WK_SECTION_BYTES more than the log has. A recording is the head, then the section of each task, 0 upward.
 * Refused with 17, 5, what is wrong with the log (11 to 14), 9.
 */
#define WK_SECTION_NUMBER 0
#define WK_SECTION_OFFSET 1 /* where in the log a record fails, with 11 to 14 */
#define WK_SECTION_WRITTEN 2
void wk_section(const uint16_t halves[WK_HALVES], const uint32_t words[WK_WORDS], size_t task, const uint8_t *log, size_t log_len,
                uint8_t *out, size_t out_len, size_t answer[WK_ANSWER]);

/*
 * The sections of all tasks in one call, one after the other from the start of `out`. The logs are one after the other in `logs`,
 * and task t's log ends at ends[t]. All are checked before a byte is written.
 * Refused with 17, 21, what is wrong with a log (11 to 14), 9.
 */
#define WK_PACK_NUMBER 0
#define WK_PACK_TASK 1   /* the task whose log is wrong, with 11 to 14, or whose section has no room, with 9 */
#define WK_PACK_OFFSET 2 /* where in that task's log a record fails, with 11 to 14 */
#define WK_PACK_WRITTEN 3
void wk_pack(const uint16_t halves[WK_HALVES], const uint32_t words[WK_WORDS], const uint8_t *logs, size_t logs_len,
             const size_t *ends, size_t ends_len, uint8_t *out, size_t out_len, size_t answer[WK_ANSWER]);

/* ---- Reading a recording ---- */

/* Whether the bytes are a recording. Refused with 10 to 14. */
#define WK_CHECK_NUMBER 0
#define WK_CHECK_OFFSET 1 /* where the record begins that fails */
void wk_check(const uint8_t *bytes, size_t bytes_len, size_t answer[WK_ANSWER]);

/* A task's body, which is its log, copied to the start of `out`. Refused with 10 to 14, 5, 9. */
#define WK_BODY_NUMBER 0
#define WK_BODY_OFFSET 1 /* where the record begins that fails, with 10 to 14 */
#define WK_BODY_WRITTEN 2
void wk_body(const uint8_t *bytes, size_t bytes_len, size_t task, uint8_t *out, size_t out_len, size_t answer[WK_ANSWER]);

/* Whether a task's body can be had, without an output for it. Refused with 10 to 14, 5. */
#define WK_BODY_CHECK_NUMBER 0
#define WK_BODY_CHECK_OFFSET 1
void wk_body_check(const uint8_t *bytes, size_t bytes_len, size_t task, size_t answer[WK_ANSWER]);

/* ---- Replay. Every call is lent the same bytes again ---- */

/*
 * Opens a replay: checks the bytes and counts the records in one pass, sets the memory to the starting values, and `places` holds the
 * run. `memory` has an entry for each cell. Refused with 10 to 14, 3; `places` is then all zero, which no later call takes.
 */
#define WK_REPLAY_OPEN_NUMBER 0
#define WK_REPLAY_OPEN_OFFSET 1
#define WK_REPLAY_OPEN_RECORDS 2 /* all that stand in the bytes: head, sections, orderings, accesses; 0 if refused */
void wk_replay_open(const uint8_t *bytes, size_t bytes_len, uint32_t *memory, size_t memory_len, size_t places[WK_PLACES],
                    size_t answer[WK_ANSWER]);

/* The tasks that may go next. Refused with 17; then none is ready. */
#define WK_READY_NUMBER 0
#define WK_READY_WORD 1   /* bit t is set for each ready task t */
#define WK_READY_COUNT 2  /* how many are ready */
#define WK_READY_LOWEST 3 /* the lowest of them, or WK_NONE_READY */
#define WK_NONE_READY 16
void wk_ready(const size_t places[WK_PLACES], const uint8_t *bytes, size_t bytes_len, size_t answer[WK_ANSWER]);

/*
 * One step: does the task's next access on the memory and moves the run on. Refused with 17, 3, 5, 15, what is wrong with the next
 * records (11 to 14), 16, 19; run and memory are then as before. 15 and 16 are no faults: the task has finished, or has to wait. With
 * 19 the task stays ready: its record says that the read got another value than the memory holds, which no box's recording does.
 */
#define WK_STEP_NUMBER 0
#define WK_STEP_OFFSET 1 /* with 11 to 14, and with 19 the read's record */
#define WK_STEP_KIND 2   /* of the access's record: WK_KIND_ 4 to 6, 8 or 9 */
#define WK_STEP_OBJECT 3
#define WK_STEP_FIELD 4  /* 0 behind WK_KIND_HEAD */
#define WK_STEP_VALUE 5
#define WK_STEP_ACCESS 6 /* the number of the access, from 1 for each task */
void wk_step(size_t places[WK_PLACES], const uint8_t *bytes, size_t bytes_len, uint32_t *memory, size_t memory_len, size_t task,
             size_t answer[WK_ANSWER]);

/* Whether no task has accesses left; no ready task without that means that the replay is stuck. Refused with 17. */
#define WK_FINISHED_NUMBER 0
#define WK_FINISHED_FINISHED 1 /* 1 or 0 */
void wk_finished(const size_t places[WK_PLACES], const uint8_t *bytes, size_t bytes_len, size_t answer[WK_ANSWER]);

/*
 * The order of a replay in which the lowest ready task always goes next: a task a byte, as many as `out` has room for. Hands back how
 * many. The run is not moved. A run that is not sound has none. Values play no part: a replay that ends with 19 does not take all of it.
 */
size_t wk_schedule(const size_t places[WK_PLACES], const uint8_t *bytes, size_t bytes_len, uint8_t *out, size_t out_len);

/*
 * A whole replay in one call, the lowest ready task first. Refused with 10 to 14, 3. A replay that sticks is accepted, not finished;
 * so is one that ends at a read whose record the memory differs from, and its number and offset are told apart, since the memory has
 * moved.
 */
#define WK_REPLAY_TO_END_NUMBER 0
#define WK_REPLAY_TO_END_OFFSET 1
#define WK_REPLAY_TO_END_STEPS 2
#define WK_REPLAY_TO_END_FINISHED 3       /* 1 or 0 */
#define WK_REPLAY_TO_END_STOPPED_NUMBER 4 /* WK_ERR_DIFFERS or 0 */
#define WK_REPLAY_TO_END_STOPPED_OFFSET 5 /* the read's record, or 0 */
void wk_replay_to_end(const uint8_t *bytes, size_t bytes_len, uint32_t *memory, size_t memory_len, size_t answer[WK_ANSWER]);

/*
 * Whether a recording can be played to its end: whether there is an order of all accesses that keeps each task's own order and every
 * ordering. If so, the one in which the lowest ready task always goes next is written to the start of `out`, a task a byte, a byte for
 * each access; bytes_len / WK_READ_BYTES are always enough. Values play no part, so no memory is needed.
 * Refused with what is wrong with the bytes (10 to 14), 18, 9 in this order.
 */
#define WK_PLAYABLE_NUMBER 0
#define WK_PLAYABLE_OFFSET 1 /* where the record begins that fails, with 10 to 14, or the first ordering that holds the task, with 18 */
#define WK_PLAYABLE_TASK 2   /* the lowest task that stays held, with 18 */
#define WK_PLAYABLE_STEPS 3  /* steps of the order, one for each access */
void wk_playable(const uint8_t *bytes, size_t bytes_len, uint8_t *out, size_t out_len, size_t answer[WK_ANSWER]);

/*
 * Plays two recordings to their ends, each on a memory of its own, and says whether both finish with the same tasks, objects, steps
 * and memory. Another number of fields is another memory; with one field the heads may differ. A replay that ends at a read whose record
 * the memory differs from has not finished. Refused with 10 to 14 for the first, 10 to 14 for the second, 3.
 */
#define WK_SAME_OUTCOME_NUMBER 0
#define WK_SAME_OUTCOME_OFFSET 1 /* in the recording that is refused */
#define WK_SAME_OUTCOME_ALIKE 2  /* 1 or 0 */
void wk_same_outcome(const uint8_t *first, size_t first_len, const uint8_t *second, size_t second_len, uint32_t *first_memory,
                     size_t first_memory_len, uint32_t *second_memory, size_t second_memory_len, size_t answer[WK_ANSWER]);

#ifdef __cplusplus
}
#endif

#endif
