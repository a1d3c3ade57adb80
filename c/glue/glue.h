/* What the files of the glue share. No proof speaks of any of it.
 *
 * The node is a value of the proved library (mtapi_c.h). One lock is held around each of its calls, and around all that the
 * glue keeps beside it: which thread has which seat, who waits for what, and what C adds to a task. */
#ifndef MTAPI_GLUE_H
#define MTAPI_GLUE_H

#include "../mrapi.h"
#include "../mtapi.h"
#include "../mtapi_c.h"
#include <pthread.h>
#include <stdatomic.h>
#include <stdbool.h>

enum {
    MOST_WORKERS = 16,
    MOST_ACTIONS = 1024,
    MOST_GROUPS = 1024,
    MOST_QUEUES = 256,
    MOST_OBJECTS = 256,
    CALLERS = 9,             /* main and eight further ones */
    IMPLEMENTATION = 0x0101, /* the version of this library, 1.1 */
    NUMBERS = 1              /* of a task: the address of its arguments; an entry of the journal with more takes five times the room */
};

/* Where the object of a handle stands in its table. */
#define SLOT(handle) ((uint32_t)((handle) & 0xffffff))

/* ---- what the glue keeps of each object, by its slot. A handle of 0 is none. */

struct action_record {
    uint64_t handle;
    mtapi_action_function_t function;
    const void *data;
    mtapi_size_t size;
    mtapi_affinity_t affinity;
};

enum task_state { SCHEDULED, RUNNING, ENDED }; /* a task that a call of many ends stays SCHEDULED here */

struct task_record {
    uint64_t handle, group, queue;
    mtapi_size_t arguments_size, result_size;
    void *result;
    mtapi_task_attributes_t attributes;
    enum task_state state;
    mtapi_status_t status;     /* what its action set */
    uint32_t next_failed;      /* of its group's list, a slot + 1 */
    atomic_bool cancel_asked;
};

struct group_record {
    uint64_t handle;
    uint32_t unended;                    /* members that haven't ended, if `exact` */
    bool exact;                          /* no call of many has ended any that aren't counted */
    uint32_t first_failed, last_failed;  /* members whose action set a status, in the order of their ends; slots + 1 */
};

struct queue_record {
    uint64_t handle;
    mtapi_queue_attributes_t attributes;
};

enum object_kind { MUTEX, SEM, RWL, SHMEM, KINDS };

struct object_record {
    uint64_t handle;
    uint32_t setting; /* of a mutex whether it is recursive, of a segment how many cells it has */
    void *memory;     /* of a segment, once somebody asked for its address */
};

struct mtapi_task_context_struct {
    uint32_t core;
    uint64_t task;
    mtapi_status_t status;
};

struct worker {
    pthread_t thread;
    uint64_t task, action, queue; /* what it runs, 0 for nothing */
    bool is_idle;                 /* it found no task, when the bell had rung so often */
    unsigned rings;
};

struct caller {
    bool taken;    /* by a thread */
    uint32_t held; /* locks and segments that this seat has */
};

/* ---- waiting */

enum wait_kind { FOR_TASK, FOR_ALL, FOR_ANY, FOR_OBJECT, FOR_ACTION, FOR_QUEUE };

/* One thread that waits, on its own stack. */
struct waiter {
    struct waiter *next;
    enum wait_kind kind;
    uint64_t object;
    bool is_worker, forever;
    atomic_uint rung, asleep;
};

/* One look at what is waited for, with the lock held: a status, or MTAPI_C_PENDING. */
typedef uint32_t look_function(void *call, bool last);

/* Looks until it is there, or the time is over; the lock is held before and afterwards, and not in between. */
uint32_t glue_wait(enum wait_kind kind, uint64_t object, int64_t milliseconds, look_function *look, void *call);
/* Those who wait for this look again. The lock is held. */
void glue_wake(enum wait_kind kind, uint64_t object);
void glue_wake_all(void);
/* A worker found no task: if nothing can happen any more, somebody who waits is woken, and told so. */
void glue_wake_stuck(void);

/* ---- the lock, and the bell of the workers */

void glue_lock(void);
void glue_unlock(void);

/* There may be a task to take: for one worker, or for any. The lock is held. */
void glue_ring_workers(bool all);
unsigned glue_work_rings(void);
/* Sleeps until the bell has rung since. */
void glue_hear_work(unsigned rings);

/* Looks a while at a word, then sleeps as long as it has this value; at most until `until` (nanoseconds, 0 for no end). */
void glue_sleep(atomic_uint *word, unsigned value, atomic_uint *asleep, uint64_t until);
void glue_wake_sleepers(atomic_uint *word, int most);
uint64_t glue_now(void);

/* ---- the node */

enum node_state { NO_NODE, STARTING, STANDING, ENDING };

struct glue {
    enum node_state state;
    mtapi_c_node node;
    uint64_t epoch;         /* counts the nodes, so that a thread knows its seat is of this one */
    bool restricted;        /* some action or task may not run on every worker */
    bool closing;
    bool for_mrapi;         /* mrapi_initialize was called */
    bool by_mrapi;          /* and it made the node */
    mtapi_domain_t domain;
    mtapi_node_t number;
    mtapi_node_attributes_t attributes;
    uint32_t workers;
    uint32_t next_id;       /* of objects that were given none, from the greatest down */
    struct waiter *waiters;
    struct task_record *tasks;
    struct worker worker[MOST_WORKERS];
    struct caller caller[CALLERS];
    struct action_record actions[MOST_ACTIONS];
    struct group_record groups[MOST_GROUPS];
    struct queue_record queues[MOST_QUEUES];
    struct object_record objects[KINDS][MOST_OBJECTS];
};

extern struct glue glue;

/* A new node with these settings, its workers, and the calling thread as main. `made` says what was done. */
uint32_t glue_make_node(const mtapi_node_attributes_t *attributes, mtapi_domain_t domain, mtapi_node_t number, bool by_mrapi);
/* Ends it. */
uint32_t glue_end_node(FILE *journal);
void *glue_serve(void *worker);

/* Begins a call: takes the lock, and tells the seat of this thread, which may be a new one. 0, or the status that the call
 * answers. The lock is held in either case. */
uint32_t glue_begin(uint32_t *who);
/* Ends it: gives the lock back, and tells the status. */
void glue_end(uint32_t code, mtapi_status_t *status);

/* Before the first node; 0 or a status. */
uint32_t glue_prepare_seats(void);
/* This thread is main, or the worker of this number. */
uint32_t glue_sit_as_main(void);
void glue_sit_as_worker(uint32_t number);
bool glue_is_worker(void);
/* The context of the action that this thread runs, or none. */
extern _Thread_local mtapi_task_context_t *glue_context;

/* ---- what the calls on tasks, groups and queues share */

static inline void glue_say(mtapi_status_t *status, uint32_t code)
{
    if (status) *status = code;
}

/* Whether there are no bytes where some are to be. */
static inline bool glue_is_missing(const void *bytes, mtapi_size_t size)
{
    return !bytes && size > 0;
}

struct group_record *glue_group_of(const struct task_record *task);
/* A task has ended: its group counts it, and those who wait for it look again. */
void glue_count_end(struct task_record *task);
/* A call may have ended any tasks. */
void glue_many_ended(void);
void glue_forget_failure(struct task_record *task);

/* The name of a status of MRAPI, or "?". */
const char *glue_mrapi_name(mrapi_status_t status);

/* A value of an attribute, in or out, of this size. 0 or MTAPI_ERR_ATTR_SIZE. */
uint32_t glue_read_value(const void *attribute, mtapi_size_t size, uint32_t *value);
uint32_t glue_read_mask(const void *attribute, mtapi_size_t size, mtapi_affinity_t *value);
uint32_t glue_write_value(void *attribute, mtapi_size_t size, uint32_t value);
uint32_t glue_write_mask(void *attribute, mtapi_size_t size, mtapi_affinity_t value);

extern const mtapi_action_attributes_t glue_default_action;
extern const mtapi_task_attributes_t glue_default_task;
extern const mtapi_queue_attributes_t glue_default_queue;
void glue_default_node(mtapi_node_attributes_t *attributes);

#endif
