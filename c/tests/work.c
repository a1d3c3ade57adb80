/* Many tasks: in groups, by ordered queues, by priorities, by affinity, detached, with a status of their own. */
#include "check.h"
#include <stdatomic.h>
#include <string.h>

enum { JOB = 1, TASKS = 1000, QUEUED = 60 };

ACTION(square)
{
    UNUSED;
    int64_t number;
    if (arguments_size != sizeof number || result_size != sizeof number) abort();
    memcpy(&number, arguments, sizeof number);
    number *= number;
    memcpy(result, &number, sizeof number);
}

/* 1,000 tasks in ten groups, with four workers. */
static void groups(void)
{
    static int64_t arguments[TASKS], results[TASKS];
    mtapi_group_hndl_t group[10];
    mtapi_status_t status;
    begin(4);
    mtapi_job_hndl_t job = job_of(JOB, square);
    for (int g = 0; g < 10; g++) {
        group[g] = mtapi_group_create(MTAPI_GROUP_ID_NONE, MTAPI_DEFAULT_GROUP_ATTRIBUTES, &status);
        OK;
    }
    for (int i = 0; i < TASKS; i++) {
        arguments[i] = i;
        mtapi_task_start(MTAPI_TASK_ID_NONE, job, &arguments[i], sizeof arguments[i], &results[i], sizeof results[i],
            MTAPI_DEFAULT_TASK_ATTRIBUTES, group[i % 10], &status);
        OK;
    }
    for (int g = 0; g < 10; g++) {
        mtapi_group_wait_all(group[g], MTAPI_INFINITE, &status);
        OK;
        for (int i = g; i < TASKS; i += 10) CHECK(results[i] == (int64_t)i * i);
        mtapi_group_delete(group[g], &status);
        OK;
    }
    end("groups");
}

/* Of each group the members one by one, each once. */
static void any(void)
{
    static int64_t arguments[TASKS], results[TASKS];
    bool seen[TASKS] = {false};
    mtapi_status_t status;
    void *result;
    begin(3);
    mtapi_job_hndl_t job = job_of(JOB, square);
    mtapi_group_hndl_t group = mtapi_group_create(MTAPI_GROUP_ID_NONE, MTAPI_DEFAULT_GROUP_ATTRIBUTES, &status);
    OK;
    for (int i = 0; i < TASKS; i++) {
        arguments[i] = i;
        mtapi_task_start(MTAPI_TASK_ID_NONE, job, &arguments[i], sizeof arguments[i], &results[i], sizeof results[i],
            MTAPI_DEFAULT_TASK_ATTRIBUTES, group, &status);
        OK;
    }
    for (int i = 0; i < TASKS; i++) {
        mtapi_group_wait_any(group, &result, MTAPI_INFINITE, &status);
        OK;
        int64_t *at = result;
        CHECK(at >= results && at < results + TASKS && !seen[at - results]);
        seen[at - results] = true;
        CHECK(*at == (at - results) * (at - results));
    }
    mtapi_group_wait_any(group, &result, MTAPI_INFINITE, &status);
    WANT(MTAPI_GROUP_COMPLETED);
    CHECK(!result);
    end("any");
}

/* Each task notes its number; tasks of one ordered queue never run beside one another. */
struct order {
    atomic_int running, count;
    int seen[QUEUED];
};
struct queued {
    struct order *order;
    int number;
};

ACTION(note)
{
    UNUSED;
    const struct queued *it = arguments;
    if (atomic_fetch_add(&it->order->running, 1) != 0) abort();
    it->order->seen[atomic_fetch_add(&it->order->count, 1)] = it->number;
    atomic_fetch_sub(&it->order->running, 1);
}

static void ordered_queues(void)
{
    static struct order orders[3];
    static struct queued queued[3][QUEUED];
    mtapi_queue_hndl_t queue[3];
    mtapi_status_t status;
    begin(4);
    mtapi_job_hndl_t job = job_of(JOB, note);
    mtapi_group_hndl_t group = mtapi_group_create(MTAPI_GROUP_ID_NONE, MTAPI_DEFAULT_GROUP_ATTRIBUTES, &status);
    OK;
    for (int q = 0; q < 3; q++) {
        queue[q] = mtapi_queue_create(MTAPI_QUEUE_ID_NONE, job, MTAPI_DEFAULT_QUEUE_ATTRIBUTES, &status);
        OK;
    }
    for (int i = 0; i < QUEUED; i++) {
        for (int q = 0; q < 3; q++) {
            queued[q][i] = (struct queued){&orders[q], i};
            mtapi_task_enqueue(MTAPI_TASK_ID_NONE, queue[q], &queued[q][i], sizeof queued[q][i], MTAPI_NULL, 0,
                MTAPI_DEFAULT_TASK_ATTRIBUTES, group, &status);
            OK;
        }
    }
    mtapi_group_wait_all(group, MTAPI_INFINITE, &status);
    OK;
    for (int q = 0; q < 3; q++)
        for (int i = 0; i < QUEUED; i++) CHECK(orders[q].seen[i] == i);
    end("ordered_queues");
}

/* An action that waits until it is let go. */
static atomic_int gate, waiting;

ACTION(at_gate)
{
    UNUSED;
    atomic_fetch_add(&waiting, 1);
    while (!atomic_load(&gate)) NAP(1);
}

/* While the one worker is busy tasks of four priorities wait; then the smaller numbers go first. */
static void priorities(void)
{
    static struct order order;
    static struct queued queued[20];
    mtapi_status_t status;
    mtapi_task_attributes_t attributes;
    begin(1);
    mtapi_job_hndl_t slow = job_of(JOB, at_gate), job = job_of(2, note);
    mtapi_group_hndl_t group = mtapi_group_create(MTAPI_GROUP_ID_NONE, MTAPI_DEFAULT_GROUP_ATTRIBUTES, &status);
    OK;
    atomic_store(&gate, 0);
    atomic_store(&waiting, 0);
    mtapi_task_hndl_t first = start(slow, NULL, 0, NULL, 0);
    while (!atomic_load(&waiting)) NAP(1);
    for (unsigned i = 0; i < 20; i++) {
        unsigned priority = 3 - i % 4;
        queued[i] = (struct queued){&order, (int)priority};
        mtapi_taskattr_init(&attributes, &status);
        OK;
        mtapi_taskattr_set(&attributes, MTAPI_TASK_PRIORITY, &priority, sizeof priority, &status);
        OK;
        mtapi_task_start(MTAPI_TASK_ID_NONE, job, &queued[i], sizeof queued[i], NULL, 0, &attributes, group, &status);
        OK;
    }
    atomic_store(&gate, 1);
    mtapi_task_wait(first, MTAPI_INFINITE, &status);
    OK;
    mtapi_group_wait_all(group, MTAPI_INFINITE, &status);
    OK;
    for (int i = 1; i < 20; i++) CHECK(order.seen[i - 1] <= order.seen[i]);
    end("priorities");
}

/* The core of an action, and its instance. */
ACTION(where)
{
    UNUSED;
    mtapi_status_t status;
    *(unsigned *)result = mtapi_context_corenum_get(context, &status);
    if (status != 0 || mtapi_context_instnum_get(context, &status) != 0 || mtapi_context_numinst_get(context, NULL) != 1) abort();
    NAP(1);
}

static void affinity(void)
{
    static unsigned cores[40];
    mtapi_status_t status;
    mtapi_task_attributes_t attributes;
    mtapi_affinity_t mask;
    begin(4);
    mtapi_job_hndl_t job = job_of(JOB, where);
    mtapi_group_hndl_t group = mtapi_group_create(MTAPI_GROUP_ID_NONE, MTAPI_DEFAULT_GROUP_ATTRIBUTES, &status);
    OK;
    NAP(20); /* all workers sleep now: each has to be woken for its own tasks */
    for (unsigned i = 0; i < 40; i++) {
        mtapi_affinity_init(&mask, MTAPI_FALSE, &status);
        OK;
        mtapi_affinity_set(&mask, i % 4, MTAPI_TRUE, &status);
        OK;
        mtapi_taskattr_init(&attributes, &status);
        OK;
        mtapi_taskattr_set(&attributes, MTAPI_TASK_AFFINITY, &mask, sizeof mask, &status);
        OK;
        mtapi_task_start(MTAPI_TASK_ID_NONE, job, NULL, 0, &cores[i], sizeof cores[i], &attributes, group, &status);
        OK;
    }
    mtapi_group_wait_all(group, MTAPI_INFINITE, &status);
    OK;
    for (unsigned i = 0; i < 40; i++) CHECK(cores[i] == i % 4);
    end("affinity");
}

/* All workers sleep, and one task comes that one of them may run: that one has to wake. */
static void affinity_of_one(void)
{
    mtapi_status_t status;
    mtapi_task_attributes_t attributes;
    begin(4);
    mtapi_job_hndl_t job = job_of(JOB, where);
    for (unsigned i = 0; i < 12; i++) {
        unsigned core = 99;
        mtapi_affinity_t mask = (mtapi_affinity_t)1 << i % 4;
        NAP(5);
        mtapi_taskattr_init(&attributes, &status);
        OK;
        mtapi_taskattr_set(&attributes, MTAPI_TASK_AFFINITY, &mask, sizeof mask, &status);
        OK;
        mtapi_task_hndl_t task =
            mtapi_task_start(MTAPI_TASK_ID_NONE, job, NULL, 0, &core, sizeof core, &attributes, MTAPI_GROUP_NONE, &status);
        OK;
        mtapi_task_wait(task, 20000, &status);
        OK;
        CHECK(core == i % 4);
    }
    end("affinity_of_one");
}

/* Of an ordered queue the tasks of which may run on one worker each: whoever ends one has to wake another. */
static void affinity_in_order(void)
{
    static unsigned cores[40];
    mtapi_status_t status;
    mtapi_task_attributes_t attributes;
    begin(2);
    mtapi_job_hndl_t job = job_of(JOB, where);
    mtapi_group_hndl_t group = mtapi_group_create(MTAPI_GROUP_ID_NONE, MTAPI_DEFAULT_GROUP_ATTRIBUTES, &status);
    OK;
    mtapi_queue_hndl_t queue = mtapi_queue_create(7, job, MTAPI_DEFAULT_QUEUE_ATTRIBUTES, &status);
    OK;
    for (unsigned i = 0; i < 40; i++) {
        mtapi_taskattr_init(&attributes, &status);
        OK;
        mtapi_affinity_t mask = (mtapi_affinity_t)1 << i % 2;
        mtapi_taskattr_set(&attributes, MTAPI_TASK_AFFINITY, &mask, sizeof mask, &status);
        OK;
        mtapi_task_enqueue(MTAPI_TASK_ID_NONE, queue, NULL, 0, &cores[i], sizeof cores[i], &attributes, group, &status);
        OK;
    }
    mtapi_group_wait_all(group, 20000, &status);
    OK;
    for (unsigned i = 0; i < 40; i++) CHECK(cores[i] == i % 2);
    end("affinity_in_order");
}

/* An action of its own data, and detached tasks. */
static atomic_int added;

ACTION(add)
{
    UNUSED;
    if (data_size != sizeof(int)) abort();
    atomic_fetch_add(&added, *(const int *)data);
}

static void detached(void)
{
    static const int five = 5;
    mtapi_status_t status;
    mtapi_task_attributes_t attributes;
    begin(2);
    mtapi_action_create(JOB, add, &five, sizeof five, MTAPI_DEFAULT_ACTION_ATTRIBUTES, &status);
    OK;
    mtapi_job_hndl_t job = mtapi_job_get(JOB, 1, &status);
    OK;
    mtapi_taskattr_init(&attributes, &status);
    OK;
    mtapi_taskattr_set(
        &attributes, MTAPI_TASK_DETACHED, MTAPI_ATTRIBUTE_VALUE(MTAPI_TRUE), MTAPI_ATTRIBUTE_POINTER_AS_VALUE, &status);
    OK;
    for (int i = 0; i < 100; i++) {
        mtapi_task_start(MTAPI_TASK_ID_NONE, job, NULL, 0, NULL, 0, &attributes, MTAPI_GROUP_NONE, &status);
        OK;
    }
    end("detached"); /* which waits for all */
    CHECK(atomic_load(&added) == 500);
}

/* An action that sets its task's status to the number that it gets. */
ACTION(fail)
{
    UNUSED;
    mtapi_status_t status;
    mtapi_context_status_set(context, *(const mtapi_status_t *)arguments, &status);
    if (status != 0) abort();
}

static mtapi_task_hndl_t put_failing(mtapi_queue_hndl_t queue, mtapi_group_hndl_t group, const mtapi_status_t *code)
{
    mtapi_status_t status;
    mtapi_task_hndl_t task = mtapi_task_enqueue(
        MTAPI_TASK_ID_NONE, queue, code, sizeof *code, (void *)code, 0, MTAPI_DEFAULT_TASK_ATTRIBUTES, group, &status);
    OK;
    return task;
}

/* What an action sets is what each wait answers: of a group the first one in the order of ends, of the members still in it. */
static void statuses(void)
{
    static const mtapi_status_t none = MTAPI_SUCCESS, failed = MTAPI_ERR_ACTION_FAILED, size = MTAPI_ERR_ARG_SIZE;
    mtapi_status_t status;
    void *result;
    begin(2);
    mtapi_queue_hndl_t queue = mtapi_queue_create(MTAPI_QUEUE_ID_NONE, job_of(JOB, fail), MTAPI_DEFAULT_QUEUE_ATTRIBUTES, &status);
    OK;
    mtapi_task_hndl_t task = put_failing(queue, MTAPI_GROUP_NONE, &size);
    mtapi_task_wait(task, MTAPI_INFINITE, &status);
    WANT(MTAPI_ERR_ARG_SIZE);
    mtapi_task_wait(put_failing(queue, MTAPI_GROUP_NONE, &none), MTAPI_INFINITE, &status);
    OK;
    mtapi_group_hndl_t group = mtapi_group_create(MTAPI_GROUP_ID_NONE, MTAPI_DEFAULT_GROUP_ATTRIBUTES, &status);
    OK;
    for (int round = 0; round < 3; round++) {
        put_failing(queue, group, &none);
        put_failing(queue, group, &failed);
        put_failing(queue, group, &size);
        put_failing(queue, group, &none);
        if (round == 1) { /* those that are handed out don't count any more */
            mtapi_group_wait_any(group, &result, MTAPI_INFINITE, &status);
            OK;
            mtapi_group_wait_any(group, &result, MTAPI_INFINITE, &status);
            WANT(MTAPI_ERR_ACTION_FAILED);
            CHECK(result == &failed);
        }
        mtapi_group_wait_all(group, MTAPI_INFINITE, &status);
        if (round == 1) WANT(MTAPI_ERR_ARG_SIZE);
        else WANT(MTAPI_ERR_ACTION_FAILED);
    }
    mtapi_group_wait_all(group, MTAPI_INFINITE, &status);
    OK;
    end("statuses");
}

/* An action is given the addresses and sizes that its task and its making have. */
static struct {
    const void *arguments, *data;
    void *result;
    mtapi_size_t sizes[3];
} seen;

ACTION(look)
{
    UNUSED;
    seen.arguments = arguments;
    seen.result = result;
    seen.data = data;
    seen.sizes[0] = arguments_size;
    seen.sizes[1] = result_size;
    seen.sizes[2] = data_size;
}

static void buffers(void)
{
    static char arguments[3], result[5], data[7];
    mtapi_status_t status;
    begin(1);
    mtapi_action_create(JOB, look, data, sizeof data, MTAPI_DEFAULT_ACTION_ATTRIBUTES, &status);
    OK;
    mtapi_job_hndl_t job = mtapi_job_get(JOB, 1, &status);
    OK;
    mtapi_task_wait(start(job, arguments, sizeof arguments, result, sizeof result), MTAPI_INFINITE, &status);
    OK;
    CHECK(seen.arguments == arguments && seen.result == result && seen.data == data);
    CHECK(seen.sizes[0] == 3 && seen.sizes[1] == 5 && seen.sizes[2] == 7);
    end("buffers");
}

int main(void)
{
    groups();
    any();
    ordered_queues();
    priorities();
    affinity();
    affinity_of_one();
    affinity_in_order();
    detached();
    statuses();
    buffers();
    return 0;
}
