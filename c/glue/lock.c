/* The lock, and how a thread sleeps until a word changes (Linux's futex). */
#define _GNU_SOURCE
#include "glue.h"
#include <errno.h>
#include <limits.h>
#include <linux/futex.h>
#include <sched.h>
#include <sys/syscall.h>
#include <time.h>
#include <unistd.h>

enum {
    SPINS = 2000,       /* looks at a word before it sleeps */
    DOUBLINGS = 7,      /* tries of the lock, each twice as long after the last */
    YIELDS = 3,         /* tries behind which the processor is given away */
    LOCK_SLEEP = 50000  /* nanoseconds between two tries behind those */
};

static atomic_bool taken;
static atomic_uint work_rings, work_sleepers;

/* One worker at a time spins for work, and hears the next ring without being woken; the others sleep. */
enum { NOBODY, SPINS_NOW, TOLD };
static atomic_uint spinner;

static void pause_a_little(void)
{
#if defined(__x86_64__) || defined(__i386__)
    __builtin_ia32_pause();
#elif defined(__aarch64__)
    __asm__ volatile("yield");
#endif
}

/* By sequentially consistent atomics, as the library asks of what hands a node from thread to thread. It spins, then gives its
 * processor away, then sleeps: so few threads at a time pass the node around, which costs least. */
void glue_lock(void)
{
    for (unsigned tries = 0;; tries++) {
        if (!atomic_load_explicit(&taken, memory_order_relaxed) && !atomic_exchange(&taken, true)) return;
        if (tries < DOUBLINGS) {
            for (unsigned i = 0; i < 1u << tries; i++) pause_a_little();
        } else if (tries < DOUBLINGS + YIELDS) {
            sched_yield();
        } else {
            nanosleep(&(struct timespec){0, LOCK_SLEEP}, NULL);
        }
    }
}

void glue_unlock(void)
{
    atomic_store(&taken, false);
}

uint64_t glue_now(void)
{
    struct timespec now;
    clock_gettime(CLOCK_MONOTONIC, &now);
    return (uint64_t)now.tv_sec * 1000000000u + (uint64_t)now.tv_nsec;
}

static void spin(atomic_uint *word, unsigned value)
{
    for (int i = 0; i < SPINS; i++) {
        if (atomic_load_explicit(word, memory_order_relaxed) != value) break;
        pause_a_little();
    }
}

static void sleep_until(atomic_uint *word, unsigned value, atomic_uint *asleep, uint64_t until)
{
    struct timespec end = {(time_t)(until / 1000000000u), (long)(until % 1000000000u)};
    atomic_fetch_add(asleep, 1);
    /* A signal, or a wake for nothing, only makes it look again. */
    while (atomic_load(word) == value) {
        long done = syscall(SYS_futex, word, FUTEX_WAIT_BITSET_PRIVATE, value, until ? &end : NULL, NULL, FUTEX_BITSET_MATCH_ANY);
        if (done == -1 && errno == ETIMEDOUT) break;
    }
    atomic_fetch_sub(asleep, 1);
}

void glue_sleep(atomic_uint *word, unsigned value, atomic_uint *asleep, uint64_t until)
{
    spin(word, value);
    sleep_until(word, value, asleep, until);
}

void glue_wake_sleepers(atomic_uint *word, int most)
{
    syscall(SYS_futex, word, FUTEX_WAKE_PRIVATE, most, NULL, NULL, 0);
}

void glue_ring_workers(bool all)
{
    unsigned spins = SPINS_NOW;
    atomic_fetch_add(&work_rings, 1);
    if (!all && atomic_compare_exchange_strong(&spinner, &spins, TOLD)) return;
    if (atomic_load(&work_sleepers)) glue_wake_sleepers(&work_rings, all ? INT_MAX : 1);
}

unsigned glue_work_rings(void)
{
    return atomic_load(&work_rings);
}

void glue_hear_work(unsigned rings)
{
    unsigned nobody = NOBODY;
    if (atomic_compare_exchange_strong(&spinner, &nobody, SPINS_NOW)) {
        spin(&work_rings, rings);
        atomic_store(&spinner, NOBODY);
    }
    sleep_until(&work_rings, rings, &work_sleepers, 0);
}
