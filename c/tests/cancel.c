/* Tasks that are cancelled before they run and while they do; what a deleted or disabled action or queue does to its tasks. */
#include "check.h"
#include <pthread.h>
#include <stdatomic.h>

static atomic_int gate, running, ran;

ACTION(at_gate)
{
    UNUSED;
    atomic_fetch_add(&running, 1);
    while (!atomic_load(&gate)) NAP(1);
    atomic_fetch_sub(&running, 1);
    atomic_fetch_add(&ran, 1);
}

/* Goes on until it is told that it was cancelled, and says so; after twenty seconds it gives up. */
ACTION(until_cancelled)
{
    UNUSED;
    mtapi_status_t status;
    atomic_fetch_add(&running, 1);
    for (int i = 0; i < 20000; i++) {
        mtapi_task_state_t state = mtapi_context_taskstate_get(context, &status);
        if (status != MTAPI_SUCCESS) abort();
        if (state == MTAPI_TASK_CANCELLED) {
            mtapi_context_status_set(context, MTAPI_ERR_ACTION_CANCELLED, &status);
            return;
        }
        NAP(1);
    }
}

static void close_gate(void)
{
    atomic_store(&gate, 0);
    atomic_store(&running, 0);
    atomic_store(&ran, 0);
}

static void wait_until_runs(int number)
{
    while (atomic_load(&running) < number) NAP(1);
}

static mtapi_group_hndl_t new_group(void)
{
    mtapi_status_t status;
    mtapi_group_hndl_t group = mtapi_group_create(MTAPI_GROUP_ID_NONE, MTAPI_DEFAULT_GROUP_ATTRIBUTES, &status);
    OK;
    return group;
}

static mtapi_task_hndl_t start_in(mtapi_job_hndl_t job, mtapi_group_hndl_t group)
{
    mtapi_status_t status;
    mtapi_task_hndl_t task = mtapi_task_start(1, job, NULL, 0, NULL, 0, MTAPI_DEFAULT_TASK_ATTRIBUTES, group, &status);
    OK;
    return task;
}

static mtapi_task_hndl_t enqueue(mtapi_queue_hndl_t queue, mtapi_group_hndl_t group)
{
    mtapi_status_t status;
    mtapi_task_hndl_t task = mtapi_task_enqueue(1, queue, NULL, 0, NULL, 0, MTAPI_DEFAULT_TASK_ATTRIBUTES, group, &status);
    OK;
    return task;
}

static void before(void)
{
    mtapi_status_t status;
    begin(1);
    close_gate();
    mtapi_job_hndl_t job = job_of(1, at_gate);
    mtapi_group_hndl_t group = new_group();
    mtapi_task_hndl_t first = start_in(job, MTAPI_GROUP_NONE);
    wait_until_runs(1);
    mtapi_task_hndl_t second = start_in(job, MTAPI_GROUP_NONE), third = start_in(job, group);
    mtapi_task_cancel(second, &status);
    OK;
    mtapi_task_wait(second, MTAPI_NOWAIT, &status);
    WANT(MTAPI_ERR_TASK_CANCELLED);
    mtapi_task_cancel(third, &status);
    OK;
    mtapi_task_cancel(third, &status); /* once more changes nothing */
    OK;
    mtapi_group_wait_all(group, MTAPI_NOWAIT, &status);
    WANT(MTAPI_ERR_TASK_CANCELLED);
    atomic_store(&gate, 1);
    mtapi_task_wait(first, MTAPI_INFINITE, &status);
    OK;
    CHECK(atomic_load(&ran) == 1);
    end("before");
}

static void while_running(void)
{
    mtapi_status_t status;
    begin(2);
    close_gate();
    mtapi_job_hndl_t job = job_of(1, until_cancelled);
    mtapi_task_hndl_t task = start_in(job, MTAPI_GROUP_NONE);
    wait_until_runs(1);
    mtapi_task_wait(task, 20, &status);
    WANT(MTAPI_TIMEOUT);
    mtapi_task_cancel(task, &status);
    OK;
    mtapi_task_wait(task, MTAPI_INFINITE, &status);
    WANT(MTAPI_ERR_ACTION_CANCELLED);
    mtapi_task_wait(task, MTAPI_INFINITE, &status);
    WANT(MTAPI_ERR_TASK_INVALID);
    end("while_running");
}

/* The next task in the slot of a cancelled one isn't cancelled. */
ACTION(state_of)
{
    UNUSED;
    *(mtapi_task_state_t *)result = mtapi_context_taskstate_get(context, NULL);
}

static void the_next_one(void)
{
    mtapi_status_t status;
    mtapi_task_state_t state = 0;
    mtapi_node_attributes_t attributes = settings(1);
    attributes.max_tasks = 1;
    mtapi_initialize(1, 1, &attributes, NULL, &status);
    OK;
    close_gate();
    mtapi_job_hndl_t job = job_of(1, until_cancelled), other = job_of(2, state_of);
    mtapi_task_hndl_t task = start_in(job, MTAPI_GROUP_NONE);
    wait_until_runs(1);
    mtapi_task_cancel(task, &status);
    OK;
    mtapi_task_wait(task, MTAPI_INFINITE, &status);
    WANT(MTAPI_ERR_ACTION_CANCELLED);
    mtapi_task_wait(start(other, NULL, 0, &state, sizeof state), MTAPI_INFINITE, &status);
    OK;
    CHECK(state == MTAPI_TASK_RUNNING);
    end("the_next_one");
}

/* Others wait while a task is cancelled, alone or in a group: they are woken. */
struct wait {
    mtapi_task_hndl_t task;
    mtapi_group_hndl_t group;
    int kind;
    atomic_int begun;
};

static void *waits(void *place)
{
    struct wait *wait = place;
    mtapi_status_t status;
    void *result;
    atomic_store(&wait->begun, 1);
    if (wait->kind == 0) mtapi_task_wait(wait->task, MTAPI_INFINITE, &status);
    if (wait->kind == 1) mtapi_group_wait_all(wait->group, MTAPI_INFINITE, &status);
    if (wait->kind == 2) mtapi_group_wait_any(wait->group, &result, MTAPI_INFINITE, &status);
    WANT(MTAPI_ERR_TASK_CANCELLED);
    return NULL;
}

static void under_a_wait(void)
{
    mtapi_status_t status;
    begin(1);
    close_gate();
    mtapi_job_hndl_t job = job_of(1, at_gate);
    start_in(job, MTAPI_GROUP_NONE);
    wait_until_runs(1);
    for (int kind = 0; kind < 3; kind++) {
        pthread_t thread;
        struct wait wait = {.group = new_group(), .kind = kind};
        wait.task = start_in(job, kind ? wait.group : MTAPI_GROUP_NONE);
        CHECK(pthread_create(&thread, NULL, waits, &wait) == 0);
        while (!atomic_load(&wait.begun)) NAP(1);
        NAP(20);
        mtapi_task_cancel(wait.task, &status);
        OK;
        CHECK(pthread_join(thread, NULL) == 0);
    }
    atomic_store(&gate, 1);
    end("under_a_wait");
}

/* The first of an ordered queue is cancelled: the next one has to be taken, by a worker that sleeps. */
static void first_of_queue(void)
{
    mtapi_status_t status;
    begin(1);
    close_gate();
    atomic_store(&gate, 1);
    mtapi_job_hndl_t job = job_of(1, at_gate);
    mtapi_queue_attributes_t attributes;
    mtapi_queueattr_init(&attributes, &status);
    OK;
    mtapi_queueattr_set(&attributes, MTAPI_QUEUE_RETAIN, MTAPI_ATTRIBUTE_VALUE(MTAPI_TRUE), MTAPI_ATTRIBUTE_POINTER_AS_VALUE, &status);
    OK;
    mtapi_queue_hndl_t queue = mtapi_queue_create(5, job, &attributes, &status);
    OK;
    mtapi_queue_disable(queue, MTAPI_INFINITE, &status);
    OK;
    mtapi_task_hndl_t first = enqueue(queue, MTAPI_GROUP_NONE), second = enqueue(queue, MTAPI_GROUP_NONE);
    mtapi_task_wait(first, 20, &status);
    WANT(MTAPI_TIMEOUT);
    mtapi_task_cancel(first, &status);
    OK;
    NAP(20); /* the worker sleeps again */
    mtapi_queue_enable(queue, &status);
    OK;
    mtapi_task_wait(second, 20000, &status);
    OK;
    mtapi_task_wait(first, MTAPI_NOWAIT, &status);
    WANT(MTAPI_ERR_TASK_CANCELLED);
    end("first_of_queue");
}

/* What takes many tasks away: a wait for their group sees it, and counts right afterwards. */
static void many(void)
{
    mtapi_status_t status;
    void *result;
    begin(1);
    close_gate();
    mtapi_job_hndl_t job = job_of(1, at_gate);
    mtapi_action_hndl_t second = mtapi_action_create(2, at_gate, NULL, 0, NULL, &status);
    OK;
    mtapi_job_hndl_t other = mtapi_job_get(2, 1, &status);
    OK;
    mtapi_queue_hndl_t queue = mtapi_queue_create(5, job, MTAPI_DEFAULT_QUEUE_ATTRIBUTES, &status);
    OK;
    mtapi_group_hndl_t group = new_group();
    mtapi_task_hndl_t busy = start_in(job, MTAPI_GROUP_NONE);
    wait_until_runs(1);
    for (int i = 0; i < 10; i++) enqueue(queue, group);
    mtapi_queue_disable(queue, MTAPI_INFINITE, &status);
    OK;
    mtapi_group_wait_any(group, &result, MTAPI_NOWAIT, &status);
    WANT(MTAPI_ERR_TASK_CANCELLED);
    mtapi_group_wait_all(group, MTAPI_INFINITE, &status);
    WANT(MTAPI_ERR_TASK_CANCELLED);
    mtapi_queue_enable(queue, &status);
    OK;
    for (int i = 0; i < 10; i++) enqueue(queue, group);
    mtapi_queue_delete(queue, MTAPI_INFINITE, &status);
    OK;
    mtapi_group_wait_all(group, MTAPI_INFINITE, &status);
    WANT(MTAPI_ERR_QUEUE_DELETED);
    for (int i = 0; i < 10; i++) start_in(other, group);
    mtapi_action_disable(second, MTAPI_INFINITE, &status);
    OK;
    mtapi_group_wait_all(group, MTAPI_INFINITE, &status);
    WANT(MTAPI_ERR_ACTION_DISABLED);
    mtapi_action_enable(second, &status);
    OK;
    for (int i = 0; i < 10; i++) start_in(other, group);
    mtapi_action_delete(second, MTAPI_INFINITE, &status);
    OK;
    start_in(job, group);
    mtapi_group_wait_all(group, 20, &status);
    WANT(MTAPI_TIMEOUT);
    atomic_store(&gate, 1);
    mtapi_group_wait_all(group, MTAPI_INFINITE, &status);
    WANT(MTAPI_ERR_ACTION_DELETED);
    mtapi_task_wait(busy, MTAPI_INFINITE, &status);
    OK;
    for (int i = 0; i < 10; i++) start_in(job, group);
    mtapi_group_wait_all(group, MTAPI_INFINITE, &status);
    OK;
    CHECK(atomic_load(&ran) == 12);
    end("many");
}

/* Each way in which a task can end that never begins, as each wait tells it. */
static void each_end(void)
{
    static const mtapi_status_t wanted[4] = {MTAPI_ERR_TASK_CANCELLED, MTAPI_ERR_ACTION_DELETED, MTAPI_ERR_ACTION_DISABLED,
        MTAPI_ERR_QUEUE_DELETED};
    mtapi_status_t status;
    begin(1);
    close_gate();
    mtapi_job_hndl_t job = job_of(9, at_gate);
    start_in(job, MTAPI_GROUP_NONE);
    wait_until_runs(1);
    for (mtapi_job_id_t way = 0; way < 4; way++) {
        mtapi_group_hndl_t group[3] = {MTAPI_GROUP_NONE, new_group(), new_group()};
        mtapi_task_hndl_t task[3];
        mtapi_action_hndl_t action = mtapi_action_create(way + 1, at_gate, NULL, 0, NULL, &status);
        OK;
        mtapi_queue_hndl_t queue = mtapi_queue_create(way, mtapi_job_get(way + 1, 1, NULL), MTAPI_NULL, &status);
        OK;
        for (int i = 0; i < 3; i++) task[i] = enqueue(queue, group[i]);
        for (int i = 0; i < 3 && way == 0; i++) mtapi_task_cancel(task[i], &status);
        if (way == 1) mtapi_action_delete(action, MTAPI_INFINITE, &status);
        if (way == 2) mtapi_action_disable(action, MTAPI_INFINITE, &status);
        if (way == 3) mtapi_queue_delete(queue, MTAPI_INFINITE, &status);
        OK;
        mtapi_task_wait(task[0], MTAPI_INFINITE, &status);
        CHECK(status == wanted[way]);
        mtapi_group_wait_all(group[1], MTAPI_INFINITE, &status);
        CHECK(status == wanted[way]);
        mtapi_group_wait_any(group[2], MTAPI_NULL, MTAPI_INFINITE, &status);
        CHECK(status == wanted[way]);
    }
    atomic_store(&gate, 1);
    end("each_end");
}

/* A deleted group's members go on; a task of a deleted action too, and the call waits for it as long as it is told. */
static void running_ones(void)
{
    mtapi_status_t status;
    begin(2);
    close_gate();
    mtapi_action_hndl_t action = mtapi_action_create(1, at_gate, NULL, 0, NULL, &status);
    OK;
    mtapi_job_hndl_t job = mtapi_job_get(1, 1, &status);
    OK;
    mtapi_group_hndl_t group = new_group();
    start_in(job, group);
    mtapi_task_hndl_t task = start_in(job, MTAPI_GROUP_NONE);
    wait_until_runs(2);
    mtapi_group_delete(group, &status);
    OK;
    double begun = seconds();
    mtapi_action_disable(action, 30, &status);
    WANT(MTAPI_TIMEOUT);
    CHECK(seconds() - begun >= 0.029);
    mtapi_action_delete(action, MTAPI_NOWAIT, &status);
    WANT(MTAPI_TIMEOUT);
    mtapi_action_delete(action, MTAPI_NOWAIT, &status);
    WANT(MTAPI_ERR_ACTION_INVALID);
    atomic_store(&gate, 1);
    mtapi_task_wait(task, MTAPI_INFINITE, &status);
    OK;
    end("running_ones");
    CHECK(atomic_load(&ran) == 2);
}

/* With MTAPI_INFINITE nothing of the queue or of the action runs when the call is back. */
static void none_left(void)
{
    mtapi_status_t status;
    begin(2);
    close_gate();
    mtapi_action_hndl_t action = mtapi_action_create(1, at_gate, NULL, 0, NULL, &status);
    OK;
    mtapi_job_hndl_t job = mtapi_job_get(1, 1, &status);
    OK;
    mtapi_queue_hndl_t queue = mtapi_queue_create(5, job, MTAPI_DEFAULT_QUEUE_ATTRIBUTES, &status);
    OK;
    mtapi_task_hndl_t task = enqueue(queue, MTAPI_GROUP_NONE);
    wait_until_runs(1);
    mtapi_queue_disable(queue, MTAPI_NOWAIT, &status);
    WANT(MTAPI_TIMEOUT);
    mtapi_queue_delete(queue, 5, &status);
    WANT(MTAPI_TIMEOUT);
    atomic_store(&gate, 1);
    mtapi_action_delete(action, MTAPI_INFINITE, &status);
    OK;
    CHECK(atomic_load(&running) == 0);
    mtapi_task_wait(task, MTAPI_NOWAIT, &status);
    OK;
    end("none_left");
}

int main(void)
{
    before();
    while_running();
    the_next_one();
    under_a_wait();
    first_of_queue();
    many();
    each_end();
    running_ones();
    none_left();
    return 0;
}
