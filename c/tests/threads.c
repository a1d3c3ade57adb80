/* Any thread calls: main and eight further ones have a seat at a time. Deadlines. The node ends while others wait. */
#include "check.h"
#include <pthread.h>
#include <stdatomic.h>

enum { JOB = 1, FURTHER = 8, EACH = 50 };

static mtapi_job_hndl_t job;
static pthread_barrier_t barrier;

ACTION(twice)
{
    UNUSED;
    *(int *)result = 2 * *(const int *)arguments;
}

static void *calls(void *unused)
{
    (void)unused;
    mtapi_status_t status;
    for (int i = 0; i < EACH; i++) {
        int argument = i, result = -1;
        mtapi_task_wait(start(job, &argument, sizeof argument, &result, sizeof result), MTAPI_INFINITE, &status);
        OK;
        CHECK(result == 2 * i);
    }
    pthread_barrier_wait(&barrier);
    pthread_barrier_wait(&barrier);
    return NULL;
}

static void *tenth(void *place)
{
    mtapi_status_t *answer = place;
    mtapi_group_create(MTAPI_GROUP_ID_NONE, NULL, answer);
    return NULL;
}

static mtapi_status_t ask_tenth(void)
{
    pthread_t thread;
    mtapi_status_t answer = 0xdead;
    CHECK(pthread_create(&thread, NULL, tenth, &answer) == 0);
    CHECK(pthread_join(thread, NULL) == 0);
    return answer;
}

/* Nine callers at once and a tenth, which has a seat once another thread has ended. */
static void callers(void)
{
    pthread_t threads[FURTHER];
    begin(3);
    job = job_of(JOB, twice);
    pthread_barrier_init(&barrier, NULL, FURTHER + 1);
    for (int i = 0; i < FURTHER; i++) CHECK(pthread_create(&threads[i], NULL, calls, NULL) == 0);
    pthread_barrier_wait(&barrier);
    CHECK(ask_tenth() == MTAPI_EXT_ERR_CALLER_LIMIT);
    pthread_barrier_wait(&barrier);
    for (int i = 0; i < FURTHER; i++) CHECK(pthread_join(threads[i], NULL) == 0);
    for (int i = 0; i < 3 * FURTHER; i++) CHECK(ask_tenth() == MTAPI_SUCCESS);
    pthread_barrier_destroy(&barrier);
    end("callers");
}

/* A thread that ends while it owns a mutex keeps its seat, and so the next one isn't the owner. */
static void *keeps_lock(void *place)
{
    mrapi_status_t status;
    mrapi_key_t key;
    mrapi_mutex_lock(*(mrapi_mutex_hndl_t *)place, &key, MRAPI_TIMEOUT_INFINITE, &status);
    OK;
    return NULL;
}

static void *tries_lock(void *place)
{
    mrapi_status_t status;
    mrapi_key_t key = 1;
    CHECK(!mrapi_mutex_trylock(*(mrapi_mutex_hndl_t *)place, &key, &status));
    WANT(MRAPI_TIMEOUT);
    mrapi_mutex_unlock(*(mrapi_mutex_hndl_t *)place, &key, &status);
    WANT(MRAPI_ERR_MUTEX_NOTLOCKED);
    return NULL;
}

static void lock_of_the_ended(void)
{
    pthread_t thread;
    mrapi_status_t status;
    begin(1);
    mrapi_mutex_hndl_t mutex = mrapi_mutex_create(MRAPI_MUTEX_ID_ANY, MRAPI_NULL, &status);
    OK;
    void *(*functions[3])(void *) = {keeps_lock, tries_lock, tries_lock};
    for (int i = 0; i < 3; i++) {
        CHECK(pthread_create(&thread, NULL, functions[i], &mutex) == 0);
        CHECK(pthread_join(thread, NULL) == 0);
    }
    end("lock_of_the_ended");
}

/* A destructor of a thread's own data calls when the library's has given the thread's seat back, and another thread may have that
 * seat and hold a lock: it isn't this thread's. The seat that the destructor then gets is given back too. */
static pthread_key_t own;
static mrapi_mutex_hndl_t others;

static void unlocks_late(void *unused)
{
    (void)unused;
    mrapi_status_t status;
    mrapi_key_t key = 1;
    pthread_barrier_wait(&barrier);
    pthread_barrier_wait(&barrier);
    mrapi_mutex_unlock(others, &key, &status);
    WANT(MRAPI_ERR_MUTEX_NOTLOCKED);
    pthread_barrier_wait(&barrier);
}

static void *leaves(void *unused)
{
    mtapi_status_t status;
    CHECK(pthread_setspecific(own, &own) == 0);
    mtapi_node_id_get(&status);
    OK;
    return unused;
}

static void *holds(void *unused)
{
    mrapi_status_t status;
    mrapi_key_t key;
    mrapi_mutex_lock(others, &key, MRAPI_TIMEOUT_INFINITE, &status);
    OK;
    pthread_barrier_wait(&barrier);
    pthread_barrier_wait(&barrier);
    mrapi_mutex_unlock(others, &key, &status);
    OK;
    return unused;
}

static void calls_of_destructors(void)
{
    pthread_t threads[2];
    mrapi_status_t status;
    begin(1);
    CHECK(pthread_key_create(&own, unlocks_late) == 0);
    pthread_barrier_init(&barrier, NULL, 2);
    others = mrapi_mutex_create(1, MRAPI_NULL, &status);
    OK;
    for (int round = 0; round < FURTHER + 1; round++) {
        CHECK(pthread_create(&threads[0], NULL, leaves, NULL) == 0);
        pthread_barrier_wait(&barrier);
        CHECK(pthread_create(&threads[1], NULL, holds, NULL) == 0);
        for (int i = 0; i < 2; i++) CHECK(pthread_join(threads[i], NULL) == 0);
    }
    pthread_barrier_destroy(&barrier);
    CHECK(pthread_key_delete(own) == 0);
    end("calls_of_destructors");
}

/* A thread whose destructor gives a lock back has given its seat back. */
static void unlocks_at_last(void *key)
{
    mrapi_status_t status;
    mrapi_mutex_unlock(others, key, &status);
    OK;
}

static void *leaves_locked(void *key)
{
    mrapi_status_t status;
    CHECK(pthread_setspecific(own, key) == 0);
    mrapi_mutex_lock(others, key, MRAPI_TIMEOUT_INFINITE, &status);
    OK;
    return NULL;
}

static void locks_of_destructors(void)
{
    pthread_t thread;
    mrapi_status_t status;
    mrapi_key_t key;
    begin(1);
    CHECK(pthread_key_create(&own, unlocks_at_last) == 0);
    others = mrapi_mutex_create(1, MRAPI_NULL, &status);
    OK;
    for (int round = 0; round < FURTHER + 1; round++) {
        CHECK(pthread_create(&thread, NULL, leaves_locked, &key) == 0);
        CHECK(pthread_join(thread, NULL) == 0);
    }
    CHECK(pthread_key_delete(own) == 0);
    end("locks_of_destructors");
}

/* Several threads initialize at once: one of them does. */
static void *initializes(void *place)
{
    mtapi_node_attributes_t attributes = settings(2);
    pthread_barrier_wait(&barrier);
    mtapi_initialize(1, 1, &attributes, NULL, place);
    return NULL;
}

static void *finalizes(void *place)
{
    pthread_barrier_wait(&barrier);
    mtapi_finalize(place);
    return NULL;
}

static void at_once(void *(*function)(void *), mtapi_status_t other)
{
    pthread_t threads[4];
    mtapi_status_t answers[4];
    int done = 0;
    for (int i = 0; i < 4; i++) CHECK(pthread_create(&threads[i], NULL, function, &answers[i]) == 0);
    for (int i = 0; i < 4; i++) CHECK(pthread_join(threads[i], NULL) == 0);
    for (int i = 0; i < 4; i++) {
        if (answers[i] == MTAPI_SUCCESS) done++;
        else CHECK(answers[i] == other);
    }
    CHECK(done == 1);
}

static void ends_at_once(void)
{
    pthread_barrier_init(&barrier, NULL, 4);
    for (int round = 0; round < 20; round++) {
        at_once(initializes, MTAPI_ERR_NODE_INITIALIZED);
        CHECK(ask_tenth() == MTAPI_SUCCESS); /* with the seat of the thread that did, which has ended */
        at_once(finalizes, MTAPI_ERR_NODE_NOTINIT);
    }
    pthread_barrier_destroy(&barrier);
}

/* Deadlines: a wait ends not before its time, and not long after it. */
static atomic_int gate;

ACTION(at_gate)
{
    UNUSED;
    while (!atomic_load(&gate)) NAP(1);
}

static void deadlines(void)
{
    mtapi_status_t status;
    begin(1);
    mtapi_job_hndl_t slow = job_of(JOB, at_gate);
    mtapi_group_hndl_t group = mtapi_group_create(MTAPI_GROUP_ID_NONE, NULL, &status);
    OK;
    mtapi_task_hndl_t task = start(slow, NULL, 0, NULL, 0);
    mtapi_task_start(1, slow, NULL, 0, NULL, 0, NULL, group, &status);
    OK;
    for (int i = 0; i < 3; i++) {
        void *result;
        double begun = seconds();
        if (i == 0) mtapi_task_wait(task, 50, &status);
        if (i == 1) mtapi_group_wait_all(group, 50, &status);
        if (i == 2) mtapi_group_wait_any(group, &result, 50, &status);
        WANT(MTAPI_TIMEOUT);
        CHECK(seconds() - begun >= 0.05 && seconds() - begun < 5);
        begun = seconds();
        mtapi_task_wait(task, MTAPI_NOWAIT, &status);
        WANT(MTAPI_TIMEOUT);
        CHECK(seconds() - begun < 5);
    }
    mtapi_task_wait(task, -2, &status);
    WANT(MTAPI_ERR_PARAMETER);
    mtapi_group_wait_all(group, -2, &status);
    WANT(MTAPI_ERR_PARAMETER);
    mtapi_group_wait_any(group, NULL, -2, &status);
    WANT(MTAPI_ERR_PARAMETER);
    atomic_store(&gate, 1);
    mtapi_task_wait(task, 20000, &status);
    OK;
    mtapi_group_wait_all(group, 20000, &status);
    OK;
    end("deadlines");
}

/* The node is finalized while one worker runs a task and the others sleep: they have to be woken once more, to stop. */
ACTION(naps)
{
    UNUSED;
    NAP(60);
    *(int *)result = 1;
}

static void ends_under_a_task(void)
{
    int done = 0;
    begin(4);
    start(job_of(JOB, naps), NULL, 0, &done, sizeof done);
    NAP(20);
    end("ends_under_a_task");
    CHECK(done == 1);
}

/* One waits for a lock that main has: the node ends all the same, and the wait with it. */
static atomic_int about_to_wait;

static void *waits_for_lock(void *place)
{
    mrapi_status_t status;
    mrapi_key_t key;
    atomic_store(&about_to_wait, 1);
    mrapi_mutex_lock(*(mrapi_mutex_hndl_t *)place, &key, MRAPI_TIMEOUT_INFINITE, &status);
    WANT(MRAPI_ERR_NODE_NOTINIT);
    return NULL;
}

static void ends_under_a_wait(void)
{
    pthread_t thread;
    mrapi_status_t status;
    mrapi_key_t key;
    begin(1);
    mrapi_mutex_hndl_t mutex = mrapi_mutex_create(1, MRAPI_NULL, &status);
    OK;
    mrapi_mutex_lock(mutex, &key, MRAPI_TIMEOUT_INFINITE, &status);
    OK;
    CHECK(pthread_create(&thread, NULL, waits_for_lock, &mutex) == 0);
    while (!atomic_load(&about_to_wait)) NAP(1);
    NAP(30);
    end("ends_under_a_wait");
    CHECK(pthread_join(thread, NULL) == 0);
}

/* Two threads wait for one task: the second one is refused. */
static void *waits_too(void *place)
{
    mtapi_status_t status;
    mtapi_task_wait(*(mtapi_task_hndl_t *)place, MTAPI_INFINITE, &status);
    OK;
    return NULL;
}

static void two_wait(void)
{
    pthread_t thread;
    mtapi_status_t status;
    begin(1);
    atomic_store(&gate, 0);
    mtapi_task_hndl_t task = start(job_of(JOB, at_gate), NULL, 0, NULL, 0);
    CHECK(pthread_create(&thread, NULL, waits_too, &task) == 0);
    for (status = MTAPI_TIMEOUT; status == MTAPI_TIMEOUT; NAP(1)) mtapi_task_wait(task, MTAPI_NOWAIT, &status);
    WANT(MTAPI_ERR_WAIT_PENDING);
    atomic_store(&gate, 1);
    CHECK(pthread_join(thread, NULL) == 0);
    end("two_wait");
}

int main(void)
{
    callers();
    lock_of_the_ended();
    calls_of_destructors();
    locks_of_destructors();
    ends_at_once();
    deadlines();
    ends_under_a_task();
    ends_under_a_wait();
    two_wait();
    return 0;
}
