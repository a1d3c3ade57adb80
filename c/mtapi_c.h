/* The functions of the proved library, crates/mtapi_c. Each makes one call of the node and waits for nothing.
 *
 * What a caller owes, since nothing checks it:
 * - a node is filled by mtapi_c_create or is all zeros; it isn't copied, and its field is neither read nor written;
 * - behind mtapi_c_create, where it answered 0, come the calls of the node; then mtapi_c_journal at most once, behind
 *   which come mtapi_c_journal_piece alone; then mtapi_c_discard once, behind which comes mtapi_c_create alone;
 * - one call is made at a time, in an order that a lock makes; none from a signal handler or a forked child;
 * - no pointer is null, where a count or a room is 0 neither; what two pointers of one call lead to doesn't overlap;
 * - a bool is 0 or 1.
 *
 * `who` is the seat that calls: 0 to workers - 1 are the workers, `workers` is main, and the further callers come behind.
 * A call answers a status: 0 where it was done; 1 to 29, a status of MTAPI; MTAPI_C_MRAPI + 1 to 30, a status of MRAPI;
 * or MTAPI_C_PENDING, MTAPI_C_IDLE, MTAPI_C_STOP. A seat that there isn't is refused with 3, and nothing happens; likewise
 * more than 16 numbers, and a kind that there isn't. A handle in an out parameter is 0 where none was given.
 *
 * Numbers that a call hands out, `room` of them at most, are written to the head of `numbers`, and what stands behind them
 * stays; `*count` says how many there were, 0 to 16, also where there was less room. */
#ifndef MTAPI_C_H
#define MTAPI_C_H

#include <stdbool.h>
#include <stddef.h>
#include <stdint.h>

#ifdef __cplusplus
extern "C" {
#endif

/* A node on the heap, or none. */
typedef struct { void *at; } mtapi_c_node;

/* The settings of a node, each with its range; the numbers of mtapi_c_create's `wrong` are 1 to 8 in this order. */
typedef struct {
    uint32_t workers;     /* 1 to 16 */
    uint32_t tasks;       /* 1 to 65,536 */
    uint32_t actions;     /* 1 to 1,024 */
    uint32_t groups;      /* 1 to 1,024 */
    uint32_t queues;      /* 1 to 256 */
    uint32_t objects;     /* 1 to 256 of each kind of MRAPI */
    uint32_t priorities;  /* 1 to 8 */
    uint32_t generations; /* 1 to 4,294,967,295 */
} mtapi_c_settings;

/* A task that a worker took, the action by which it runs, its kind, and how many numbers it has. All 0 where it took none. */
typedef struct {
    uint64_t task;
    uint64_t action;
    size_t count;
    uint32_t kind;
} mtapi_c_picked;

/* Beside the numbers of the statuses. */
enum {
    MTAPI_C_MEMORY = 99,      /* memory was short */
    MTAPI_C_PENDING = 100,    /* not yet: look again later */
    MTAPI_C_IDLE = 101,       /* the worker finds no task to run */
    MTAPI_C_STOP = 102,       /* the worker will find none any more */
    MTAPI_C_NO_JOURNAL = 103, /* the node keeps none */
    MTAPI_C_MRAPI = 200       /* statuses of MRAPI come behind this */
};

/* The kinds of action. A function of C runs under MTAPI_C_ECHO, whose results are the task's numbers. */
enum {
    MTAPI_C_ADD = 1,
    MTAPI_C_MUL = 2,
    MTAPI_C_MAX = 3,
    MTAPI_C_DIV = 4,
    MTAPI_C_GCD = 5,
    MTAPI_C_ECHO = 6,
    MTAPI_C_TRIANGLE = 7,
    MTAPI_C_FAIL = 8,
    MTAPI_C_WATCH = 9,
    MTAPI_C_TALLY = 10
};

/* ---- the node */

/* Makes a node for 1 to 9 callers, main included. 0; or 3, and *wrong is the number of the first setting that is out of its
 * range, 9 for the callers; or MTAPI_C_MEMORY. *wrong is else 0. Where it isn't 0, the node is as it was. */
uint32_t mtapi_c_create(mtapi_c_node *node, const mtapi_c_settings *settings, uint32_t callers, bool journal, uint32_t *wrong);

/* Gives the node, or its journal's text, up. */
void mtapi_c_discard(mtapi_c_node *node);

/* Ends the calls of a node and makes the text of its journal, of *length bytes: 0; MTAPI_C_NO_JOURNAL where it keeps none;
 * MTAPI_C_MEMORY where memory was short, now or at an earlier call. Where it isn't 0, *length is 0. */
uint32_t mtapi_c_journal(mtapi_c_node *node, size_t *length);

/* Writes the bytes of the text from this place on to the head of `bytes`, and says how many: as many as there are, and `room`
 * at most. */
size_t mtapi_c_journal_piece(mtapi_c_node *node, size_t from, uint8_t *bytes, size_t room);

uint32_t mtapi_c_initialize(mtapi_c_node *node, uint32_t who);
uint32_t mtapi_c_release(mtapi_c_node *node, uint32_t who);
uint32_t mtapi_c_enter(mtapi_c_node *node, uint32_t who);
/* No new objects any more. */
uint32_t mtapi_c_close(mtapi_c_node *node, uint32_t who);
/* The end, once each worker was answered MTAPI_C_STOP. */
uint32_t mtapi_c_final(mtapi_c_node *node, uint32_t who);

/* ---- jobs and actions */

uint32_t mtapi_c_job_get(mtapi_c_node *node, uint32_t who, uint32_t job, int64_t *number);
uint32_t mtapi_c_action_create(mtapi_c_node *node, uint32_t who, uint32_t job, uint32_t kind, uint64_t cores, uint64_t *action);
uint32_t mtapi_c_action_delete(mtapi_c_node *node, uint32_t who, uint64_t action);
uint32_t mtapi_c_action_disable(mtapi_c_node *node, uint32_t who, uint64_t action);
uint32_t mtapi_c_action_enable(mtapi_c_node *node, uint32_t who, uint64_t action);

/* ---- tasks. A group of 0 is none. */

uint32_t mtapi_c_task_start(mtapi_c_node *node, uint32_t who, uint32_t job, const int64_t *numbers, size_t count,
    uint32_t priority, uint64_t cores, bool detached, uint64_t group, uint64_t *task);
uint32_t mtapi_c_task_enqueue(mtapi_c_node *node, uint32_t who, uint64_t queue, const int64_t *numbers, size_t count,
    uint64_t cores, bool detached, uint64_t group, uint64_t *task);
/* 0 with the results, 17 where it was cancelled, or the status with which it failed. */
uint32_t mtapi_c_task_look(mtapi_c_node *node, uint32_t who, uint64_t task, bool last, int64_t *numbers, size_t room,
    size_t *count);
uint32_t mtapi_c_task_cancel(mtapi_c_node *node, uint32_t who, uint64_t task);

/* ---- groups */

uint32_t mtapi_c_group_create(mtapi_c_node *node, uint32_t who, uint64_t *group);
uint32_t mtapi_c_group_delete(mtapi_c_node *node, uint32_t who, uint64_t group);
uint32_t mtapi_c_group_all_look(mtapi_c_node *node, uint32_t who, uint64_t group, bool last);
/* The status is that of the member's end, where *task isn't 0. */
uint32_t mtapi_c_group_any_look(mtapi_c_node *node, uint32_t who, uint64_t group, bool last, uint64_t *task,
    int64_t *numbers, size_t room, size_t *count);

/* ---- queues */

uint32_t mtapi_c_queue_create(mtapi_c_node *node, uint32_t who, uint32_t id, uint32_t job, uint32_t priority, uint32_t limit,
    bool ordered, bool retain, uint64_t *queue);
uint32_t mtapi_c_queue_get(mtapi_c_node *node, uint32_t who, uint32_t id, uint64_t *queue);
uint32_t mtapi_c_queue_enable(mtapi_c_node *node, uint32_t who, uint64_t queue);
uint32_t mtapi_c_queue_disable(mtapi_c_node *node, uint32_t who, uint64_t queue);
uint32_t mtapi_c_queue_delete(mtapi_c_node *node, uint32_t who, uint64_t queue);

/* ---- workers */

/* 0 with a task; MTAPI_C_IDLE or MTAPI_C_STOP. */
uint32_t mtapi_c_pick(mtapi_c_node *node, uint32_t who, mtapi_c_picked *picked, int64_t *numbers, size_t room);
/* Ends the task that the worker runs, with the kind and the numbers that the pick gave: the answer is that of the kind, 1 to
 * 8. A watch or a tally is ended by its own calls. */
uint32_t mtapi_c_finish(mtapi_c_node *node, uint32_t who, uint64_t task, uint32_t kind, const int64_t *numbers, size_t count);
/* Whether the watch that the worker runs was asked to stop. */
uint32_t mtapi_c_watch_asked(mtapi_c_node *node, uint32_t who, uint64_t task, bool *asked);
/* The status of the watch's end, with its results. */
uint32_t mtapi_c_watch_end(mtapi_c_node *node, uint32_t who, uint64_t task, int64_t *numbers, size_t room, size_t *count);
/* *held says whether the tally has its mutex and its segment, or has failed. */
uint32_t mtapi_c_tally_lock(mtapi_c_node *node, uint32_t who, uint64_t task, bool *held);
uint32_t mtapi_c_tally_read(mtapi_c_node *node, uint32_t who, uint64_t task, int64_t *number);
uint32_t mtapi_c_tally_write(mtapi_c_node *node, uint32_t who, uint64_t task, int64_t number);
uint32_t mtapi_c_tally_end(mtapi_c_node *node, uint32_t who, uint64_t task, int64_t *numbers, size_t room, size_t *count);

/* ---- mutexes. *key is the new depth of the lock. */

uint32_t mtapi_c_mutex_create(mtapi_c_node *node, uint32_t who, uint32_t id, bool recursive, uint64_t *mutex);
uint32_t mtapi_c_mutex_get(mtapi_c_node *node, uint32_t who, uint32_t id, uint64_t *mutex);
uint32_t mtapi_c_mutex_delete(mtapi_c_node *node, uint32_t who, uint64_t mutex);
uint32_t mtapi_c_mutex_look(mtapi_c_node *node, uint32_t who, uint64_t mutex, bool last, int64_t *key);
uint32_t mtapi_c_mutex_unlock(mtapi_c_node *node, uint32_t who, uint64_t mutex, uint32_t key);

/* ---- semaphores */

uint32_t mtapi_c_sem_create(mtapi_c_node *node, uint32_t who, uint32_t id, uint32_t limit, uint64_t *sem);
uint32_t mtapi_c_sem_get(mtapi_c_node *node, uint32_t who, uint32_t id, uint64_t *sem);
uint32_t mtapi_c_sem_delete(mtapi_c_node *node, uint32_t who, uint64_t sem);
uint32_t mtapi_c_sem_look(mtapi_c_node *node, uint32_t who, uint64_t sem, bool last);
uint32_t mtapi_c_sem_unlock(mtapi_c_node *node, uint32_t who, uint64_t sem);

/* ---- reader-writer locks */

uint32_t mtapi_c_rwl_create(mtapi_c_node *node, uint32_t who, uint32_t id, uint32_t limit, uint64_t *rwl);
uint32_t mtapi_c_rwl_get(mtapi_c_node *node, uint32_t who, uint32_t id, uint64_t *rwl);
uint32_t mtapi_c_rwl_delete(mtapi_c_node *node, uint32_t who, uint64_t rwl);
uint32_t mtapi_c_rwl_look(mtapi_c_node *node, uint32_t who, uint64_t rwl, bool writer, bool last);
uint32_t mtapi_c_rwl_unlock(mtapi_c_node *node, uint32_t who, uint64_t rwl, bool writer);

/* ---- shared segments */

uint32_t mtapi_c_shmem_create(mtapi_c_node *node, uint32_t who, uint32_t id, uint32_t cells, uint64_t *shmem);
uint32_t mtapi_c_shmem_get(mtapi_c_node *node, uint32_t who, uint32_t id, uint64_t *shmem);
uint32_t mtapi_c_shmem_delete(mtapi_c_node *node, uint32_t who, uint64_t shmem);
uint32_t mtapi_c_shmem_attach(mtapi_c_node *node, uint32_t who, uint64_t shmem);
uint32_t mtapi_c_shmem_detach(mtapi_c_node *node, uint32_t who, uint64_t shmem);
uint32_t mtapi_c_shmem_read(mtapi_c_node *node, uint32_t who, uint64_t shmem, uint32_t cell, int64_t *number);
uint32_t mtapi_c_shmem_write(mtapi_c_node *node, uint32_t who, uint64_t shmem, uint32_t cell, int64_t number);

#ifdef __cplusplus
}
#endif

#endif
