/* Tasks that start tasks: each node of a binary tree of depth 10 is one. All are in one group, which no task has left before
 * it has started its two children; so a wait for the group is a wait for the tree. At the end the run's journal goes to standard
 * output: `./tree | mtapi trace - >tree.json`. */
#include <mtapi.h>
#include <stdatomic.h>
#include <stdio.h>
#include <stdlib.h>

static mtapi_group_hndl_t group;
static mtapi_job_hndl_t job;
static atomic_int count;

static void check(mtapi_status_t status)
{
    if (status == MTAPI_SUCCESS) return;
    fprintf(stderr, "%s\n", mtapi_ext_status_name(status));
    exit(1);
}

static void grow(int depth)
{
    mtapi_status_t status;
    mtapi_task_start(MTAPI_TASK_ID_NONE, job, (void *)(intptr_t)depth, 0, MTAPI_NULL, 0, MTAPI_DEFAULT_TASK_ATTRIBUTES, group,
        &status);
    check(status);
}

static void branch(const void *arguments, mtapi_size_t arguments_size, void *result, mtapi_size_t result_size, const void *data,
    mtapi_size_t data_size, mtapi_task_context_t *context)
{
    (void)arguments_size, (void)result, (void)result_size, (void)data, (void)data_size, (void)context;
    int depth = (int)(intptr_t)arguments;
    atomic_fetch_add(&count, 1);
    if (depth == 0) return;
    grow(depth - 1);
    grow(depth - 1);
}

int main(void)
{
    mtapi_status_t status;
    mtapi_node_attributes_t attributes;
    mtapi_nodeattr_init(&attributes, &status);
    mtapi_uint_t tasks = 4096;
    mtapi_nodeattr_set(&attributes, MTAPI_NODE_MAX_TASKS, &tasks, sizeof tasks, &status);
    check(status);
    mtapi_nodeattr_set(&attributes, MTAPI_EXT_NODE_JOURNAL, MTAPI_ATTRIBUTE_VALUE(MTAPI_TRUE), MTAPI_ATTRIBUTE_POINTER_AS_VALUE,
        &status);
    check(status);
    mtapi_initialize(1, 1, &attributes, MTAPI_NULL, &status);
    check(status);
    mtapi_action_create(1, branch, MTAPI_NULL, 0, MTAPI_DEFAULT_ACTION_ATTRIBUTES, &status);
    check(status);
    job = mtapi_job_get(1, 1, &status);
    check(status);
    group = mtapi_group_create(MTAPI_GROUP_ID_NONE, MTAPI_DEFAULT_GROUP_ATTRIBUTES, &status);
    check(status);
    grow(10);
    mtapi_group_wait_all(group, MTAPI_INFINITE, &status);
    check(status);
    fprintf(stderr, "%d tasks\n", atomic_load(&count));
    mtapi_ext_finalize(stdout, &status);
    check(status);
    return 0;
}
