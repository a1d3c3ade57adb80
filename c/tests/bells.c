/* Who waits is woken by what ends the wait: one worker is busy all the time, so that no wait ends since nothing can happen. */
#include "check.h"
#include <pthread.h>
#include <stdatomic.h>

enum { JOB = 1, SHORT = 2, QUEUE = 1, MOMENT = 40 };

static atomic_int gate, running;

ACTION(at_gate)
{
    UNUSED;
    atomic_fetch_add(&running, 1);
    while (!atomic_load(&gate)) NAP(1);
}

ACTION(naps)
{
    UNUSED;
    atomic_fetch_add(&running, 1);
    NAP(MOMENT);
}

static mtapi_job_hndl_t slow, brief;

static void begin_busy(unsigned workers)
{
    begin(workers);
    atomic_store(&gate, 0);
    atomic_store(&running, 0);
    slow = job_of(JOB, at_gate);
    brief = job_of(SHORT, naps);
    start(slow, NULL, 0, NULL, 0);
    while (!atomic_load(&running)) NAP(1);
}

static void end_busy(const char *name)
{
    atomic_store(&gate, 1);
    end(name);
}

/* The end of a task, for who waits for it, for its group, for the action and for the queue. */
static void ends(void)
{
    mtapi_status_t status;
    void *result;
    begin_busy(2);
    mtapi_group_hndl_t group = mtapi_group_create(MTAPI_GROUP_ID_NONE, MTAPI_NULL, &status);
    OK;
    mtapi_queue_hndl_t queue = mtapi_queue_create(QUEUE, brief, MTAPI_NULL, &status);
    OK;
    mtapi_action_hndl_t other = mtapi_action_create(3, naps, NULL, 0, MTAPI_NULL, &status);
    OK;
    mtapi_task_wait(start(brief, NULL, 0, NULL, 0), MTAPI_INFINITE, &status);
    OK;
    for (int way = 0; way < 2; way++) {
        mtapi_task_start(1, brief, NULL, 0, NULL, 0, MTAPI_NULL, group, &status);
        OK;
        if (way == 0) mtapi_group_wait_all(group, MTAPI_INFINITE, &status);
        else mtapi_group_wait_any(group, &result, MTAPI_INFINITE, &status);
        OK;
    }
    atomic_store(&running, 0);
    mtapi_task_enqueue(1, queue, NULL, 0, NULL, 0, MTAPI_NULL, MTAPI_GROUP_NONE, &status);
    OK;
    while (!atomic_load(&running)) NAP(1);
    mtapi_queue_disable(queue, MTAPI_INFINITE, &status);
    OK;
    atomic_store(&running, 0);
    start(mtapi_job_get(3, 1, NULL), NULL, 0, NULL, 0);
    while (!atomic_load(&running)) NAP(1);
    mtapi_action_disable(other, MTAPI_INFINITE, &status);
    OK;
    end_busy("ends");
}

/* What another thread does, a moment later. */
static mtapi_task_hndl_t task;
static mtapi_group_hndl_t group;
static mrapi_mutex_hndl_t mutex;
static mrapi_sem_hndl_t sem;
static mrapi_rwl_hndl_t rwl;
static pthread_barrier_t barrier;

static void *cancels(void *unused)
{
    mtapi_status_t status;
    NAP(MOMENT);
    mtapi_task_cancel(task, &status);
    OK;
    return unused;
}

static void *deletes_group(void *unused)
{
    mtapi_status_t status;
    NAP(MOMENT);
    mtapi_group_delete(group, &status);
    OK;
    return unused;
}

static void *gives_back(void *unused)
{
    mrapi_status_t status;
    mrapi_key_t key;
    mrapi_mutex_lock(mutex, &key, MRAPI_TIMEOUT_INFINITE, &status);
    OK;
    mrapi_sem_lock(sem, MRAPI_TIMEOUT_INFINITE, &status);
    OK;
    mrapi_rwl_lock(rwl, MRAPI_RWL_WRITER, MRAPI_TIMEOUT_INFINITE, &status);
    OK;
    pthread_barrier_wait(&barrier);
    NAP(MOMENT);
    mrapi_mutex_unlock(mutex, &key, &status);
    OK;
    NAP(MOMENT);
    mrapi_sem_unlock(sem, &status);
    OK;
    NAP(MOMENT);
    mrapi_rwl_unlock(rwl, MRAPI_RWL_WRITER, &status);
    OK;
    return unused;
}

static void cancelled(void)
{
    pthread_t thread;
    mtapi_status_t status;
    begin_busy(1);
    for (int way = 0; way < 3; way++) {
        group = mtapi_group_create(MTAPI_GROUP_ID_NONE, MTAPI_NULL, &status);
        OK;
        task = mtapi_task_start(1, brief, NULL, 0, NULL, 0, MTAPI_NULL, way ? group : MTAPI_GROUP_NONE, &status);
        OK;
        CHECK(pthread_create(&thread, NULL, cancels, NULL) == 0);
        if (way == 0) mtapi_task_wait(task, MTAPI_INFINITE, &status);
        if (way == 1) mtapi_group_wait_all(group, MTAPI_INFINITE, &status);
        if (way == 2) mtapi_group_wait_any(group, MTAPI_NULL, MTAPI_INFINITE, &status);
        WANT(MTAPI_ERR_TASK_CANCELLED);
        CHECK(pthread_join(thread, NULL) == 0);
    }
    for (int way = 0; way < 2; way++) {
        group = mtapi_group_create(MTAPI_GROUP_ID_NONE, MTAPI_NULL, &status);
        OK;
        mtapi_task_start(1, brief, NULL, 0, NULL, 0, MTAPI_NULL, group, &status);
        OK;
        CHECK(pthread_create(&thread, NULL, deletes_group, NULL) == 0);
        if (way == 0) mtapi_group_wait_all(group, MTAPI_INFINITE, &status);
        else mtapi_group_wait_any(group, MTAPI_NULL, MTAPI_INFINITE, &status);
        WANT(MTAPI_ERR_GROUP_INVALID);
        CHECK(pthread_join(thread, NULL) == 0);
    }
    end_busy("cancelled");
}

static void given_back(void)
{
    pthread_t thread;
    mrapi_status_t status;
    mrapi_key_t key;
    begin_busy(1);
    mutex = mrapi_mutex_create(1, MRAPI_NULL, &status);
    OK;
    sem = mrapi_sem_create(1, MRAPI_NULL, 1, &status);
    OK;
    rwl = mrapi_rwl_create(1, MRAPI_NULL, 1, &status);
    OK;
    pthread_barrier_init(&barrier, NULL, 2);
    CHECK(pthread_create(&thread, NULL, gives_back, NULL) == 0);
    pthread_barrier_wait(&barrier);
    mrapi_mutex_lock(mutex, &key, MRAPI_TIMEOUT_INFINITE, &status);
    OK;
    mrapi_sem_lock(sem, MRAPI_TIMEOUT_INFINITE, &status);
    OK;
    mrapi_rwl_lock(rwl, MRAPI_RWL_READER, MRAPI_TIMEOUT_INFINITE, &status);
    OK;
    CHECK(pthread_join(thread, NULL) == 0);
    pthread_barrier_destroy(&barrier);
    end_busy("given_back");
}

/* Members that ended with their queue count no more: the end of the last other one is told. */
static atomic_int second;

ACTION(at_second)
{
    UNUSED;
    atomic_fetch_add(&running, 1);
    while (!atomic_load(&second)) NAP(1);
}

static void *opens(void *unused)
{
    NAP(MOMENT);
    atomic_store(&second, 1);
    return unused;
}

static void counted(void)
{
    pthread_t thread;
    mtapi_status_t status;
    begin_busy(2);
    atomic_store(&second, 0);
    mtapi_job_hndl_t third = job_of(3, at_second);
    mtapi_queue_hndl_t queue = mtapi_queue_create(QUEUE, brief, MTAPI_NULL, &status);
    OK;
    group = mtapi_group_create(MTAPI_GROUP_ID_NONE, MTAPI_NULL, &status);
    OK;
    mtapi_task_start(1, third, NULL, 0, NULL, 0, MTAPI_NULL, group, &status);
    OK;
    while (atomic_load(&running) < 2) NAP(1);
    for (int i = 0; i < 3; i++) {
        mtapi_task_enqueue(1, queue, NULL, 0, NULL, 0, MTAPI_NULL, group, &status);
        OK;
    }
    mtapi_queue_disable(queue, MTAPI_INFINITE, &status);
    OK;
    CHECK(pthread_create(&thread, NULL, opens, NULL) == 0);
    mtapi_group_wait_all(group, MTAPI_INFINITE, &status);
    WANT(MTAPI_ERR_TASK_CANCELLED);
    CHECK(pthread_join(thread, NULL) == 0);
    end_busy("counted");
}

int main(void)
{
    ends();
    counted();
    cancelled();
    given_back();
    return 0;
}
