/* Waits that nothing can end: no worker has a task, and no thread of the process is left that could make another call. */
#include "check.h"
#include <pthread.h>
#include <stdatomic.h>

enum { JOB = 1, LEAF = 2, QUEUE = 1 };

static mtapi_job_hndl_t leaf;
static atomic_int gate;

ACTION(nothing)
{
    UNUSED;
}

ACTION(at_gate)
{
    UNUSED;
    while (!atomic_load(&gate)) NAP(1);
}

/* Starts a task that may run on its own worker alone, and waits for it. */
ACTION(waits_for_itself)
{
    UNUSED;
    mtapi_status_t status;
    mtapi_task_attributes_t attributes;
    mtapi_taskattr_init(&attributes, &status);
    OK;
    mtapi_affinity_init(&attributes.affinity, MTAPI_FALSE, &status);
    OK;
    mtapi_affinity_set(&attributes.affinity, mtapi_context_corenum_get(context, NULL), MTAPI_TRUE, &status);
    OK;
    mtapi_task_hndl_t task = mtapi_task_start(1, leaf, NULL, 0, NULL, 0, &attributes, MTAPI_GROUP_NONE, &status);
    OK;
    mtapi_task_wait(task, MTAPI_INFINITE, &status);
    WANT(MTAPI_EXT_ERR_DEADLOCK);
    mtapi_task_cancel(task, &status);
    OK;
    mtapi_task_wait(task, MTAPI_NOWAIT, &status);
    WANT(MTAPI_ERR_TASK_CANCELLED);
}

/* The wait of the action is told, and not that of main for the action's task. */
static void affinity(unsigned workers)
{
    mtapi_status_t status;
    begin(workers);
    leaf = job_of(LEAF, nothing);
    mtapi_task_wait(start(job_of(JOB, waits_for_itself), NULL, 0, NULL, 0), MTAPI_INFINITE, &status);
    OK;
    end("affinity");
}

/* A task of a queue that was disabled before it could begin. */
static mtapi_queue_hndl_t held_back(mtapi_task_hndl_t *task)
{
    mtapi_status_t status;
    mtapi_queue_attributes_t attributes;
    begin(1);
    mtapi_job_hndl_t slow = job_of(JOB, at_gate);
    leaf = job_of(LEAF, nothing);
    mtapi_queueattr_init(&attributes, &status);
    OK;
    attributes.retain = MTAPI_TRUE;
    mtapi_queue_hndl_t queue = mtapi_queue_create(QUEUE, leaf, &attributes, &status);
    OK;
    atomic_store(&gate, 0);
    mtapi_task_hndl_t busy = start(slow, NULL, 0, NULL, 0);
    *task = mtapi_task_enqueue(1, queue, NULL, 0, NULL, 0, NULL, MTAPI_GROUP_NONE, &status);
    OK;
    mtapi_queue_disable(queue, MTAPI_INFINITE, &status);
    OK;
    atomic_store(&gate, 1);
    mtapi_task_wait(busy, MTAPI_INFINITE, &status);
    OK;
    return queue;
}

static void disabled_queue(void)
{
    mtapi_status_t status;
    mtapi_task_hndl_t task;
    mtapi_queue_hndl_t queue = held_back(&task);
    mtapi_task_wait(task, MTAPI_INFINITE, &status);
    WANT(MTAPI_EXT_ERR_DEADLOCK);
    mtapi_task_wait(task, 20, &status);
    WANT(MTAPI_TIMEOUT);
    mtapi_group_hndl_t group = mtapi_group_create(MTAPI_GROUP_ID_NONE, MTAPI_NULL, &status);
    OK;
    mtapi_task_enqueue(1, queue, NULL, 0, NULL, 0, NULL, group, &status);
    OK;
    mtapi_group_wait_any(group, MTAPI_NULL, MTAPI_INFINITE, &status);
    WANT(MTAPI_EXT_ERR_DEADLOCK);
    mtapi_group_wait_all(group, MTAPI_INFINITE, &status);
    WANT(MTAPI_EXT_ERR_DEADLOCK);
    mtapi_queue_enable(queue, &status);
    OK;
    mtapi_task_wait(task, MTAPI_INFINITE, &status);
    OK;
    mtapi_group_wait_all(group, MTAPI_INFINITE, &status);
    OK;
    end("disabled_queue");
}

/* Main waits before the worker is idle, which then sees that nothing can happen any more. */
ACTION(takes_long)
{
    UNUSED;
    atomic_store(&gate, 1);
    NAP(80);
}

static void idle_at_last(void)
{
    mtapi_status_t status;
    mtapi_queue_attributes_t attributes;
    begin(1);
    mtapi_job_hndl_t slow = job_of(JOB, takes_long);
    leaf = job_of(LEAF, nothing);
    mtapi_queueattr_init(&attributes, &status);
    OK;
    attributes.retain = MTAPI_TRUE;
    mtapi_queue_hndl_t queue = mtapi_queue_create(QUEUE, leaf, &attributes, &status);
    OK;
    mtapi_queue_disable(queue, MTAPI_INFINITE, &status);
    OK;
    mtapi_task_hndl_t task = mtapi_task_enqueue(1, queue, NULL, 0, NULL, 0, NULL, MTAPI_GROUP_NONE, &status);
    OK;
    atomic_store(&gate, 0);
    mtapi_task_hndl_t busy = start(slow, NULL, 0, NULL, 0);
    while (!atomic_load(&gate)) NAP(1);
    mtapi_task_wait(task, MTAPI_INFINITE, &status);
    WANT(MTAPI_EXT_ERR_DEADLOCK);
    mtapi_task_wait(busy, MTAPI_INFINITE, &status);
    OK;
    mtapi_task_cancel(task, &status);
    OK;
    mtapi_task_wait(task, MTAPI_INFINITE, &status);
    WANT(MTAPI_ERR_TASK_CANCELLED);
    end("idle_at_last");
}

/* A thread that hasn't called yet may still help, and does. */
static void *enables(void *queue)
{
    mtapi_status_t status;
    NAP(250);
    mtapi_queue_enable(*(mtapi_queue_hndl_t *)queue, &status);
    OK;
    return NULL;
}

/* Or it ends, and with it the hope. */
static void *naps(void *unused)
{
    NAP(250);
    return unused;
}

static void with_a_thread(void *(*function)(void *), mtapi_status_t wanted)
{
    pthread_t thread;
    mtapi_status_t status;
    mtapi_task_hndl_t task;
    mtapi_queue_hndl_t queue = held_back(&task);
    double begun = seconds();
    CHECK(pthread_create(&thread, NULL, function, &queue) == 0);
    mtapi_task_wait(task, MTAPI_INFINITE, &status);
    CHECK(status == wanted);
    CHECK(seconds() - begun >= 0.25);
    CHECK(pthread_join(thread, NULL) == 0);
    end("with_a_thread");
}

/* Two threads, each with a mutex, want that of the other: one is told, and gives its own back. */
static mrapi_mutex_hndl_t mutexes[2];
static pthread_barrier_t both;
static atomic_int told;

static void *takes_both(void *place)
{
    int mine = *(int *)place;
    mrapi_status_t status;
    mrapi_key_t key, other;
    mrapi_mutex_lock(mutexes[mine], &key, MRAPI_TIMEOUT_INFINITE, &status);
    OK;
    pthread_barrier_wait(&both);
    mrapi_mutex_lock(mutexes[1 - mine], &other, MRAPI_TIMEOUT_INFINITE, &status);
    if (status == MRAPI_EXT_ERR_DEADLOCK) {
        atomic_fetch_add(&told, 1);
    } else {
        OK;
        mrapi_mutex_unlock(mutexes[1 - mine], &other, &status);
        OK;
    }
    mrapi_mutex_unlock(mutexes[mine], &key, &status);
    OK;
    return NULL;
}

/* A thread that ends as the writer of a lock. */
static void *stays_writer(void *place)
{
    mrapi_status_t status;
    mrapi_rwl_lock(*(mrapi_rwl_hndl_t *)place, MRAPI_RWL_WRITER, MRAPI_TIMEOUT_INFINITE, &status);
    OK;
    return NULL;
}

static void locks(void)
{
    static int first = 0, second = 1;
    pthread_t thread;
    mrapi_status_t status;
    begin(2);
    pthread_barrier_init(&both, NULL, 2);
    for (unsigned i = 0; i < 2; i++) {
        mutexes[i] = mrapi_mutex_create(i, MRAPI_NULL, &status);
        OK;
    }
    CHECK(pthread_create(&thread, NULL, takes_both, &second) == 0);
    takes_both(&first);
    CHECK(pthread_join(thread, NULL) == 0);
    CHECK(atomic_load(&told) == 1);
    mrapi_sem_hndl_t sem = mrapi_sem_create(1, MRAPI_NULL, 1, &status);
    OK;
    mrapi_sem_lock(sem, MRAPI_TIMEOUT_INFINITE, &status);
    OK;
    mrapi_sem_lock(sem, MRAPI_TIMEOUT_INFINITE, &status);
    WANT(MRAPI_EXT_ERR_DEADLOCK);
    mrapi_rwl_hndl_t rwl = mrapi_rwl_create(1, MRAPI_NULL, 2, &status);
    OK;
    CHECK(pthread_create(&thread, NULL, stays_writer, &rwl) == 0);
    CHECK(pthread_join(thread, NULL) == 0);
    mrapi_rwl_lock(rwl, MRAPI_RWL_READER, MRAPI_TIMEOUT_INFINITE, &status);
    WANT(MRAPI_EXT_ERR_DEADLOCK);
    pthread_barrier_destroy(&both);
    end("locks");
}

int main(void)
{
    with_a_thread(enables, MTAPI_SUCCESS);
#ifndef WATCHED_BY_A_THREAD
    affinity(1);
    affinity(2);
    affinity(4);
    disabled_queue();
    idle_at_last();
    with_a_thread(naps, MTAPI_EXT_ERR_DEADLOCK);
    locks();
#else
    (void)affinity, (void)disabled_queue, (void)idle_at_last, (void)naps, (void)locks;
#endif
    return 0;
}
