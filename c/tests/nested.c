/* Tasks that start tasks, and that wait for them; a wait that could never end. */
#include "check.h"
#include <stdatomic.h>

enum { JOB = 1, LEAF = 2, DEEP = 3 };

static mtapi_job_hndl_t tree, leaf;
static mtapi_group_hndl_t all;
static atomic_int count;

static void start_in_action(mtapi_job_hndl_t job, int depth)
{
    mtapi_status_t status;
    mtapi_task_start(MTAPI_TASK_ID_NONE, job, (void *)(intptr_t)depth, 0, NULL, 0, NULL, all, &status);
    if (status != 0) abort();
}

/* Counts itself, and starts two more. */
ACTION(branch)
{
    UNUSED;
    intptr_t depth = (intptr_t)arguments;
    atomic_fetch_add(&count, 1);
    if (depth == 0) return;
    start_in_action(tree, (int)depth - 1);
    start_in_action(tree, (int)depth - 1);
}

/* All of a tree are in one group, which has ended once no task of it can start another one. */
static void trees(void)
{
    mtapi_status_t status;
    begin(4);
    tree = job_of(JOB, branch);
    all = mtapi_group_create(MTAPI_GROUP_ID_NONE, NULL, &status);
    OK;
    start_in_action(tree, 8);
    mtapi_group_wait_all(all, MTAPI_INFINITE, &status);
    OK;
    CHECK(atomic_load(&count) == 511);
    end("trees");
}

ACTION(one)
{
    UNUSED;
    *(int *)result = 1;
}

/* Starts a leaf and waits for it: its worker is held meanwhile, so it takes a second worker. */
ACTION(waits)
{
    UNUSED;
    mtapi_status_t status;
    int value = 0;
    mtapi_task_hndl_t task = mtapi_task_start(1, leaf, NULL, 0, &value, sizeof value, NULL, MTAPI_GROUP_NONE, &status);
    if (status != 0) abort();
    mtapi_task_wait(task, MTAPI_INFINITE, &status);
    *(mtapi_status_t *)result = status;
    if (status == MTAPI_EXT_ERR_DEADLOCK) {
        mtapi_task_cancel(task, &status);
        mtapi_task_wait(task, MTAPI_NOWAIT, &status);
        if (status != MTAPI_ERR_TASK_CANCELLED) abort();
    } else if (value != 1) {
        abort();
    }
}

static void waits_in_actions(unsigned workers, mtapi_status_t wanted)
{
    mtapi_status_t status, answer = 0xdead;
    begin(workers);
    leaf = job_of(LEAF, one);
    mtapi_job_hndl_t job = job_of(JOB, waits);
    mtapi_task_wait(start(job, NULL, 0, &answer, sizeof answer), MTAPI_INFINITE, &status);
    OK;
    CHECK(answer == wanted);
    end("waits_in_actions");
}

/* As many tasks that wait as workers, many times: some are refused, none hangs, and all end. */
static void no_worker_left(void)
{
    static mtapi_status_t answers[200];
    mtapi_status_t status;
    begin(2);
    leaf = job_of(LEAF, one);
    mtapi_job_hndl_t job = job_of(JOB, waits);
    all = mtapi_group_create(MTAPI_GROUP_ID_NONE, NULL, &status);
    OK;
    for (int i = 0; i < 200; i++) {
        mtapi_task_start(1, job, NULL, 0, &answers[i], sizeof answers[i], NULL, all, &status);
        OK;
    }
    mtapi_group_wait_all(all, MTAPI_INFINITE, &status);
    OK;
    for (int i = 0; i < 200; i++) CHECK(answers[i] == MTAPI_SUCCESS || answers[i] == MTAPI_EXT_ERR_DEADLOCK);
    end("no_worker_left");
}

/* Two workers, and a chain: each link starts a task and waits for it, which starts the next link before it ends. So one of both
 * workers can always go on: whoever waits has just been woken, or what it waits for can run. No wait is refused. */
enum { LINKS = 500 };
static mtapi_job_hndl_t chain_link, middle;
static atomic_int refused;

ACTION(begins_next)
{
    UNUSED;
    intptr_t left = (intptr_t)arguments;
    if (left > 0) start_in_action(chain_link, (int)left - 1);
}

ACTION(waits_for_middle)
{
    UNUSED;
    mtapi_status_t status;
    mtapi_task_hndl_t task = mtapi_task_start(1, middle, arguments, 0, NULL, 0, NULL, MTAPI_GROUP_NONE, &status);
    if (status != 0) abort();
    mtapi_task_wait(task, MTAPI_INFINITE, &status);
    if (status != 0) atomic_fetch_add(&refused, 1);
}

static void chain(void)
{
    mtapi_status_t status;
    begin(2);
    chain_link = job_of(JOB, waits_for_middle);
    middle = job_of(LEAF, begins_next);
    all = mtapi_group_create(MTAPI_GROUP_ID_NONE, NULL, &status);
    OK;
    start_in_action(chain_link, LINKS);
    mtapi_group_wait_all(all, MTAPI_INFINITE, &status);
    OK;
    CHECK(atomic_load(&refused) == 0);
    end("chain");
}

/* Recursion deeper than there are workers: a child that hasn't begun when its parent comes to it is taken back, and the parent
 * does its work; so a wait is for one that runs, and none is refused. */
static mtapi_job_hndl_t part;

static long fibonacci(intptr_t n)
{
    mtapi_status_t status;
    long first = 0, second;
    if (n < 2) return (long)n;
    mtapi_task_hndl_t task =
        mtapi_task_start(1, part, (void *)(n - 1), 0, &first, sizeof first, NULL, MTAPI_GROUP_NONE, &status);
    if (status != 0) abort();
    second = fibonacci(n - 2);
    mtapi_task_cancel(task, &status);
    if (status != 0) abort();
    mtapi_task_wait(task, MTAPI_INFINITE, &status);
    if (status == MTAPI_ERR_TASK_CANCELLED) first = fibonacci(n - 1);
    else if (status != 0) abort();
    return first + second;
}

ACTION(number_of)
{
    UNUSED;
    *(long *)result = fibonacci((intptr_t)arguments);
}

static void recursion(unsigned workers)
{
    mtapi_status_t status;
    long number = 0;
    begin(workers);
    part = job_of(JOB, number_of);
    mtapi_task_wait(start(part, (void *)(intptr_t)13, 0, &number, sizeof number), MTAPI_INFINITE, &status);
    OK;
    CHECK(number == 233);
    end("recursion");
}

/* What an action can't do: it has no lock, and can't finalize the node. */
ACTION(cannot)
{
    UNUSED;
    mtapi_status_t *answers = result;
    mrapi_mutex_create(1, MRAPI_NULL, &answers[0]);
    mtapi_finalize(&answers[1]);
    mrapi_finalize(&answers[2]);
    mtapi_context_taskstate_get((const mtapi_task_context_t *)result, &answers[3]);
    mtapi_context_status_set(MTAPI_NULL, MTAPI_ERR_UNKNOWN, &answers[4]);
    mtapi_context_status_set(context, 100, &answers[5]);
    mtapi_context_runtime_notify(context, 0, NULL, 0, &answers[6]);
    mtapi_ext_finalize(MTAPI_NULL, &answers[7]);
    mtapi_context_taskstate_get(MTAPI_NULL, &answers[8]);
    mtapi_context_instnum_get(MTAPI_NULL, &answers[9]);
    mtapi_context_numinst_get(MTAPI_NULL, &answers[10]);
    mtapi_context_corenum_get(MTAPI_NULL, &answers[11]);
}

static void refused_in_actions(void)
{
    static const mtapi_status_t wanted[12] = {MRAPI_ERR_PARAMETER, MTAPI_EXT_ERR_DEADLOCK, MRAPI_EXT_ERR_DEADLOCK,
        MTAPI_ERR_CONTEXT_OUTOFCONTEXT, MTAPI_ERR_CONTEXT_INVALID, MTAPI_ERR_PARAMETER, MTAPI_ERR_FUNC_NOT_IMPLEMENTED,
        MTAPI_EXT_ERR_DEADLOCK, MTAPI_ERR_CONTEXT_INVALID, MTAPI_ERR_CONTEXT_INVALID, MTAPI_ERR_CONTEXT_INVALID,
        MTAPI_ERR_CONTEXT_INVALID};
    mtapi_status_t status, answers[12];
    begin(1);
    mrapi_initialize(1, 1, MRAPI_NULL, MRAPI_NULL, &status);
    OK;
    mtapi_job_hndl_t job = job_of(JOB, cannot);
    mtapi_task_wait(start(job, NULL, 0, answers, sizeof answers), MTAPI_INFINITE, &status);
    OK;
    for (int i = 0; i < 12; i++) CHECK(answers[i] == wanted[i]);
    end("refused_in_actions");
}

/* A context outside of its action. */
static mtapi_task_context_t *kept;

ACTION(keeps)
{
    UNUSED;
    kept = context;
}

static void out_of_context(void)
{
    mtapi_status_t status;
    begin(1);
    mtapi_task_wait(start(job_of(JOB, keeps), NULL, 0, NULL, 0), MTAPI_INFINITE, &status);
    OK;
    mtapi_context_status_set(kept, MTAPI_ERR_UNKNOWN, &status);
    WANT(MTAPI_ERR_CONTEXT_OUTOFCONTEXT);
    CHECK(mtapi_context_taskstate_get(kept, &status) == 0);
    WANT(MTAPI_ERR_CONTEXT_OUTOFCONTEXT);
    mtapi_context_corenum_get(kept, &status);
    WANT(MTAPI_ERR_CONTEXT_OUTOFCONTEXT);
    mtapi_context_instnum_get(kept, &status);
    WANT(MTAPI_ERR_CONTEXT_OUTOFCONTEXT);
    mtapi_context_numinst_get(kept, &status);
    WANT(MTAPI_ERR_CONTEXT_OUTOFCONTEXT);
    end("out_of_context");
}

int main(void)
{
    trees();
    waits_in_actions(1, MTAPI_EXT_ERR_DEADLOCK);
    waits_in_actions(2, MTAPI_SUCCESS);
    no_worker_left();
    chain();
    for (unsigned workers = 1; workers <= 4; workers++) recursion(workers);
    refused_in_actions();
    out_of_context();
    return 0;
}
