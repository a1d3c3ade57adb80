/* The tasks of `mtapi gen N W` by the library for C: `c N W` runs as many in one group with W workers, waits for it, and writes the
 * sum of what they answered. `c N W pairs` waits for each before it starts the next one, and writes nanoseconds a pair. */
#define _DEFAULT_SOURCE
#include "../../c/mtapi.h"
#include <inttypes.h>
#include <stdlib.h>
#include <string.h>
#include <time.h>

struct work {
    int64_t arguments[2], result;
};

static void need(mtapi_status_t status)
{
    if (status == MTAPI_SUCCESS) return;
    fprintf(stderr, "%s\n", mtapi_ext_status_name(status));
    exit(1);
}

static void add(const void *arguments, mtapi_size_t arguments_size, void *result, mtapi_size_t result_size, const void *data,
    mtapi_size_t data_size, mtapi_task_context_t *context)
{
    (void)arguments_size, (void)result_size, (void)data, (void)data_size, (void)context;
    const int64_t *numbers = arguments;
    *(int64_t *)result = numbers[0] + numbers[1];
}

static void triangle(const void *arguments, mtapi_size_t arguments_size, void *result, mtapi_size_t result_size, const void *data,
    mtapi_size_t data_size, mtapi_task_context_t *context)
{
    (void)arguments_size, (void)result_size, (void)data, (void)data_size, (void)context;
    const int64_t n = *(const int64_t *)arguments;
    *(int64_t *)result = n * (n + 1) / 2;
}

static mtapi_job_hndl_t job_of(mtapi_job_id_t id, mtapi_action_function_t function)
{
    mtapi_status_t status;
    mtapi_action_create(id, function, NULL, 0, NULL, &status);
    need(status);
    mtapi_job_hndl_t job = mtapi_job_get(id, 1, &status);
    need(status);
    return job;
}

static void set(mtapi_node_attributes_t *attributes, mtapi_uint_t number, mtapi_uint_t value)
{
    mtapi_status_t status;
    mtapi_nodeattr_set(attributes, number, &value, sizeof value, &status);
    need(status);
}

static void run_pairs(int64_t tasks, mtapi_job_hndl_t job)
{
    struct timespec begun, ended;
    mtapi_status_t status;
    struct work work = {{1, 2}, 0};
    clock_gettime(CLOCK_MONOTONIC, &begun);
    for (int64_t i = 0; i < tasks; i++) {
        mtapi_task_hndl_t task = mtapi_task_start(MTAPI_TASK_ID_NONE, job, work.arguments, sizeof work.arguments, &work.result,
            sizeof work.result, NULL, MTAPI_GROUP_NONE, &status);
        need(status);
        mtapi_task_wait(task, MTAPI_INFINITE, &status);
        need(status);
    }
    clock_gettime(CLOCK_MONOTONIC, &ended);
    printf("%.0f\n", ((double)(ended.tv_sec - begun.tv_sec) * 1e9 + (double)(ended.tv_nsec - begun.tv_nsec)) / (double)tasks);
}

static void run_group(int64_t tasks, mtapi_job_hndl_t add_job, mtapi_job_hndl_t triangle_job)
{
    mtapi_status_t status;
    struct work *work = malloc((size_t)tasks * sizeof *work);
    int64_t sum = 0;
    if (!work) exit(1);
    mtapi_group_hndl_t group = mtapi_group_create(MTAPI_GROUP_ID_NONE, NULL, &status);
    need(status);
    for (int64_t i = 0; i < tasks; i++) {
        if (i % 2 == 0) memcpy(work[i].arguments, (int64_t[]){i, 7}, sizeof work[i].arguments);
        else work[i].arguments[0] = i % 64;
        mtapi_task_start(MTAPI_TASK_ID_NONE, i % 2 == 0 ? add_job : triangle_job, work[i].arguments, sizeof work[i].arguments,
            &work[i].result, sizeof work[i].result, NULL, group, &status);
        need(status);
    }
    mtapi_group_wait_all(group, MTAPI_INFINITE, &status);
    need(status);
    for (int64_t i = 0; i < tasks; i++) sum += work[i].result;
    printf("%" PRId64 "\n", sum);
    free(work);
}

int main(int count, char **words)
{
    mtapi_status_t status;
    mtapi_node_attributes_t attributes;
    if (count < 3) return 2;
    const int64_t tasks = atoll(words[1]);
    mtapi_nodeattr_init(&attributes, &status);
    need(status);
    set(&attributes, MTAPI_NODE_NUMCORES, (mtapi_uint_t)atoi(words[2]));
    set(&attributes, MTAPI_NODE_MAX_TASKS, (mtapi_uint_t)tasks);
    set(&attributes, MTAPI_EXT_NODE_JOURNAL, MTAPI_TRUE);
    mtapi_initialize(1, 1, &attributes, NULL, &status);
    need(status);
    mtapi_job_hndl_t add_job = job_of(1, add), triangle_job = job_of(2, triangle);
    if (count > 3) run_pairs(tasks, add_job);
    else run_group(tasks, add_job, triangle_job);
    mtapi_finalize(&status);
    need(status);
    return 0;
}
