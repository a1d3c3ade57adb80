/*
 * mtapi_journal.h: writes a journal of an MTAPI program, which `mtapi` judges.
 *
 * Plain C99, no dependency, nothing to link. Each function writes one line, which is one call and its answer; docs/judge.md says what a
 * line means. The functions take no lock: call one within the critical section of your runtime that does what the line says, so that
 * the lines stand in the order in which the calls took effect. Where a write fails, `failed` is set, and nothing more is written.
 *
 *     mtj_journal j;
 *     mtj_begin(&j, file, (mtj_settings){.workers = 4, .callers = 1});
 *     mtj_initialize(&j, mtj_caller(0));
 *
 * Handles are of your own choice: a slot from 0 on, as the place of the object in a table, and a generation from 1 on, which is one more
 * than that of the object of the same kind that had the slot before.
 */
#ifndef MTAPI_JOURNAL_H
#define MTAPI_JOURNAL_H

#include <stdarg.h>
#include <stddef.h>
#include <stdint.h>
#include <stdio.h>

/* The settings of a node. What is 0 has the value of a node that sets nothing. */
typedef struct {
    unsigned workers, callers, tasks, actions, groups, queues, objects, priorities, generations;
} mtj_settings;

typedef struct {
    FILE *file;
    unsigned workers;
    int failed;
} mtj_journal;

/* Who makes a call: a worker, or a caller, of whom 0 is main. */
typedef struct {
    char kind;
    unsigned number;
} mtj_seat;

/* An object: its slot and generation. The letter of its kind is that of the call. */
typedef struct {
    uint32_t generation, slot;
} mtj_handle;

/* A list of 0 to 16 numbers: the arguments of a task, or what it gave. */
typedef struct {
    const int64_t *values;
    size_t count;
} mtj_list;

#define MTJ_ALL_CORES UINT64_MAX
#define MTJ_NO_GROUP ((mtj_handle){0, 0})

static inline mtj_seat mtj_worker(unsigned number) { return (mtj_seat){'w', number}; }
static inline mtj_seat mtj_caller(unsigned number) { return (mtj_seat){'c', number}; }

/* A part of a line. */
static inline void mtj_put(mtj_journal *j, const char *format, ...)
{
    va_list parts;
    if (j->failed)
        return;
    va_start(parts, format);
    if (vfprintf(j->file, format, parts) < 0)
        j->failed = 1;
    va_end(parts);
}

static inline void mtj_put_list(mtj_journal *j, mtj_list list)
{
    if (list.count == 0)
        mtj_put(j, "-");
    for (size_t i = 0; i < list.count; i++)
        mtj_put(j, i ? ",%lld" : "%lld", (long long)list.values[i]);
}

static inline void mtj_put_group(mtj_journal *j, mtj_handle group)
{
    if (group.generation)
        mtj_put(j, " g%u.%u", group.generation, group.slot);
    else
        mtj_put(j, " -");
}

/* What every line begins with. */
static inline void mtj_put_call(mtj_journal *j, mtj_seat who, const char *call)
{
    mtj_put(j, "%c%u %s", who.kind, who.number, call);
}

static inline void mtj_put_on(mtj_journal *j, mtj_seat who, const char *call, char kind, mtj_handle object)
{
    mtj_put(j, "%c%u %s %c%u.%u", who.kind, who.number, call, kind, object.generation, object.slot);
}

/* Any line, for what has no function below: its op with the fields, and its answer, as docs/journal-text.md has them. */
static inline void mtj_line(mtj_journal *j, mtj_seat who, const char *op, const char *reply)
{
    mtj_put(j, "%c%u %s -> %s\n", who.kind, who.number, op, reply);
}

/* The head line: no other call comes before. */
static inline void mtj_begin(mtj_journal *j, FILE *file, mtj_settings s)
{
    j->file = file;
    j->workers = s.workers ? s.workers : 4;
    j->failed = 0;
    mtj_put(j, "mtapi-journal 2 workers=%u callers=%u tasks=%u actions=%u groups=%u queues=%u objects=%u priorities=%u generations=%u\n",
            j->workers, s.callers ? s.callers : 1, s.tasks ? s.tasks : 1024, s.actions ? s.actions : 64, s.groups ? s.groups : 128,
            s.queues ? s.queues : 16, s.objects ? s.objects : 16, s.priorities ? s.priorities : 4,
            s.generations ? s.generations : UINT32_MAX);
}

/* The node: main initializes it, lets the further callers enter, closes it, and finalizes it once every worker has stopped. */
static inline void mtj_initialize(mtj_journal *j, mtj_seat main) { mtj_line(j, main, "initialize", "ok"); }
static inline void mtj_release(mtj_journal *j, mtj_seat main) { mtj_line(j, main, "release", "ok"); }
static inline void mtj_enter(mtj_journal *j, mtj_seat caller) { mtj_line(j, caller, "enter", "ok"); }
static inline void mtj_close(mtj_journal *j, mtj_seat main) { mtj_line(j, main, "close", "ok"); }
static inline void mtj_final(mtj_journal *j, mtj_seat main) { mtj_line(j, main, "final", "ok"); }

/* An action of a job. Work of your own is of the kind "echo", which gives its arguments. */
static inline void mtj_action_create(mtj_journal *j, mtj_seat who, unsigned job, const char *kind, uint64_t cores, mtj_handle action)
{
    mtj_put_call(j, who, "action_create");
    mtj_put(j, " %u %s %llu -> handle a%u.%u\n", job, kind, (unsigned long long)cores, action.generation, action.slot);
}

static inline void mtj_action_delete(mtj_journal *j, mtj_seat who, mtj_handle action)
{
    mtj_put_on(j, who, "action_delete", 'a', action);
    mtj_put(j, " -> ok\n");
}

static inline void mtj_group_create(mtj_journal *j, mtj_seat who, mtj_handle group)
{
    mtj_put_call(j, who, "group_create");
    mtj_put(j, " -> handle g%u.%u\n", group.generation, group.slot);
}

static inline void mtj_group_delete(mtj_journal *j, mtj_seat who, mtj_handle group)
{
    mtj_put_on(j, who, "group_delete", 'g', group);
    mtj_put(j, " -> ok\n");
}

static inline void mtj_queue_create(mtj_journal *j, mtj_seat who, unsigned id, unsigned job, unsigned priority, unsigned limit,
                                    int ordered, int retain, mtj_handle queue)
{
    mtj_put_call(j, who, "queue_create");
    mtj_put(j, " %u %u %u %u %d %d -> handle q%u.%u\n", id, job, priority, limit, !!ordered, !!retain, queue.generation, queue.slot);
}

static inline void mtj_queue_delete(mtj_journal *j, mtj_seat who, mtj_handle queue)
{
    mtj_put_on(j, who, "queue_delete", 'q', queue);
    mtj_put(j, " -> ok\n");
}

/* A task is made, of a job or of a queue: from here on a worker may take it. */
static inline void mtj_task_start(mtj_journal *j, mtj_seat who, unsigned job, mtj_list args, unsigned priority, uint64_t cores,
                                  int detached, mtj_handle group, mtj_handle task)
{
    mtj_put(j, "%c%u task_start %u ", who.kind, who.number, job);
    mtj_put_list(j, args);
    mtj_put(j, " %u %llu %d", priority, (unsigned long long)cores, !!detached);
    mtj_put_group(j, group);
    mtj_put(j, " -> handle t%u.%u\n", task.generation, task.slot);
}

static inline void mtj_task_enqueue(mtj_journal *j, mtj_seat who, mtj_handle queue, mtj_list args, uint64_t cores, int detached,
                                    mtj_handle group, mtj_handle task)
{
    mtj_put_on(j, who, "task_enqueue", 'q', queue);
    mtj_put(j, " ");
    mtj_put_list(j, args);
    mtj_put(j, " %llu %d", (unsigned long long)cores, !!detached);
    mtj_put_group(j, group);
    mtj_put(j, " -> handle t%u.%u\n", task.generation, task.slot);
}

/* A worker takes a task: it leaves the ready ones in the same critical section. */
static inline void mtj_pick(mtj_journal *j, mtj_seat worker, mtj_handle task, mtj_handle action, const char *kind, mtj_list args)
{
    mtj_put_call(j, worker, "pick");
    mtj_put(j, " -> picked t%u.%u a%u.%u %s ", task.generation, task.slot, action.generation, action.slot, kind);
    mtj_put_list(j, args);
    mtj_put(j, "\n");
}

/* A worker is told to stop: the node is closed, and no task is left that hasn't ended. */
static inline void mtj_stop(mtj_journal *j, mtj_seat worker) { mtj_line(j, worker, "pick", "stop"); }

/* A task ends, with these numbers: from here on a wait for it may give them. */
static inline void mtj_finish(mtj_journal *j, mtj_seat worker, mtj_handle task, const char *kind, mtj_list args, mtj_list gave)
{
    mtj_put_on(j, worker, "finish", 't', task);
    mtj_put(j, " %s ", kind);
    mtj_put_list(j, args);
    mtj_put(j, " completed ");
    mtj_put_list(j, gave);
    mtj_put(j, " -> ok\n");
}

/* A task ends with the status of an error, as "MTAPI_ERR_ACTION_FAILED". */
static inline void mtj_finish_failed(mtj_journal *j, mtj_seat worker, mtj_handle task, const char *kind, mtj_list args, const char *status)
{
    mtj_put_on(j, worker, "finish", 't', task);
    mtj_put(j, " %s ", kind);
    mtj_put_list(j, args);
    mtj_put(j, " error %s -> ok\n", status);
}

static inline void mtj_task_cancel(mtj_journal *j, mtj_seat who, mtj_handle task)
{
    mtj_put_on(j, who, "task_cancel", 't', task);
    mtj_put(j, " -> ok\n");
}

/* A caller that waits for a task, or that looked at it, finds that it hasn't ended. Of the looks of one wait the first is enough. */
static inline void mtj_task_pending(mtj_journal *j, mtj_seat who, mtj_handle task)
{
    mtj_put_on(j, who, "task_look", 't', task);
    mtj_put(j, " 0 -> pending\n");
}

/* A wait gives the end of a task, and the task is freed: its slot may have a new one. */
static inline void mtj_task_ended(mtj_journal *j, mtj_seat who, mtj_handle task, mtj_list gave)
{
    mtj_put_on(j, who, "task_look", 't', task);
    mtj_put(j, " 0 -> ended completed ");
    mtj_put_list(j, gave);
    mtj_put(j, "\n");
}

static inline void mtj_task_cancelled(mtj_journal *j, mtj_seat who, mtj_handle task)
{
    mtj_put_on(j, who, "task_look", 't', task);
    mtj_put(j, " 0 -> ended cancelled\n");
}

static inline void mtj_task_failed(mtj_journal *j, mtj_seat who, mtj_handle task, const char *status)
{
    mtj_put_on(j, who, "task_look", 't', task);
    mtj_put(j, " 0 -> ended error %s\n", status);
}

/* A wait for all members of a group is over: each was completed; they are freed. */
static inline void mtj_all_ended(mtj_journal *j, mtj_seat who, mtj_handle group)
{
    mtj_put_on(j, who, "all_look", 'g', group);
    mtj_put(j, " 0 -> ok\n");
}

#endif
