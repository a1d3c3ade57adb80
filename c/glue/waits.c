/* How a call waits: it looks, and sleeps until what it waits for may have come. */
#define _DEFAULT_SOURCE
#include "glue.h"
#include <sys/stat.h>

enum {
    NANOSECONDS = 1000000, /* of a millisecond */
    RECHECK = 100          /* milliseconds after which threads are counted again */
};

static void put_in(struct waiter *waiter)
{
    waiter->next = glue.waiters;
    glue.waiters = waiter;
}

static void take_out(struct waiter *waiter)
{
    struct waiter **at = &glue.waiters;
    while (*at != waiter) at = &(*at)->next;
    *at = waiter->next;
}

static void wake(struct waiter *waiter)
{
    atomic_store(&waiter->rung, 1);
    if (atomic_load(&waiter->asleep)) glue_wake_sleepers(&waiter->rung, 1);
}

void glue_wake(enum wait_kind kind, uint64_t object)
{
    for (struct waiter *each = glue.waiters; each; each = each->next)
        if (each->kind == kind && each->object == object) wake(each);
}

void glue_wake_all(void)
{
    for (struct waiter *each = glue.waiters; each; each = each->next) wake(each);
}

/* Whether this one goes on only if somebody else does something: it has neither been woken nor a time limit. */
static bool is_held(const struct waiter *waiter)
{
    return waiter->forever && !atomic_load(&waiter->rung);
}

static uint32_t count_held(bool workers)
{
    uint32_t count = 0;
    for (const struct waiter *each = glue.waiters; each; each = each->next)
        if (each->is_worker == workers && is_held(each)) count++;
    return count;
}

/* Whether the idle workers, of which there are so many, have been told that there is no task for them, and the bell hasn't rung
 * since. Where each task may run on every worker, it is enough that one was told. */
static bool is_told(uint32_t idle)
{
    uint32_t told = 0;
    for (uint32_t i = 0; i < glue.workers; i++)
        if (glue.worker[i].is_idle && glue.worker[i].rings == glue_work_rings()) told++;
    return glue.restricted ? told == idle : told > 0;
}

static uint32_t count_idle(void)
{
    uint32_t idle = 0;
    for (uint32_t i = 0; i < glue.workers; i++) idle += glue.worker[i].is_idle;
    return idle;
}

/* Whether this process has so many threads: the folder of a process's threads has a link for each beside its own two. */
static bool has_threads(uint32_t count)
{
    struct stat folder;
    return stat("/proc/self/task", &folder) == 0 && folder.st_nlink == count + 2;
}

/* Whether no worker goes on by itself: each waits in an action without end, or is idle and has no task. */
static bool are_workers_held(void)
{
    uint32_t idle = count_idle();
    return count_held(true) + idle == glue.workers && (idle == 0 || is_told(idle));
}

/* Whether nobody is counted on for help, where no worker goes on by itself: every one of them waits in an action, or each further
 * thread of the process waits here too, main maybe for the workers' end. */
static bool has_no_help(void)
{
    return count_held(true) == glue.workers || has_threads(glue.workers + count_held(false) + glue.closing);
}

/* Where no worker goes on by itself, who is told so if there is no help: the last that began to wait, in an action if there is
 * one. */
static struct waiter *find_stuck(void)
{
    struct waiter *found = NULL;
    if (!are_workers_held()) return NULL;
    for (struct waiter *each = glue.waiters; each; each = each->next)
        if (is_held(each) && (!found || (each->is_worker && !found->is_worker))) found = each;
    return found;
}

void glue_wake_stuck(void)
{
    struct waiter *stuck = glue.waiters ? find_stuck() : NULL;
    if (stuck) wake(stuck);
}

uint32_t glue_wait(enum wait_kind kind, uint64_t object, int64_t milliseconds, look_function *look, void *call)
{
    struct waiter waiter = {.kind = kind, .object = object, .is_worker = glue_is_worker(), .forever = milliseconds < 0};
    uint64_t until = 0;
    uint32_t code = look(call, milliseconds == 0);
    if (code != MTAPI_C_PENDING) return code;
    if (milliseconds > 0) until = glue_now() + (uint64_t)milliseconds * NANOSECONDS;
    put_in(&waiter);
    for (;;) {
        struct waiter *stuck = waiter.forever ? find_stuck() : NULL;
        if (stuck == &waiter && has_no_help()) {
            code = look(call, true);
            if (code == MTAPI_TIMEOUT || code == MTAPI_C_MRAPI + MRAPI_TIMEOUT) code = MTAPI_EXT_ERR_DEADLOCK;
            break;
        }
        if (stuck && stuck != &waiter) wake(stuck);
        uint64_t at_most = stuck == &waiter ? glue_now() + (uint64_t)RECHECK * NANOSECONDS : until;
        glue_unlock();
        glue_sleep(&waiter.rung, 0, &waiter.asleep, at_most);
        glue_lock();
        bool last = until && glue_now() >= until;
        code = look(call, last);
        if (code != MTAPI_C_PENDING) break;
        atomic_store(&waiter.rung, 0);
    }
    take_out(&waiter);
    return code;
}
