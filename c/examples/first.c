#include <mtapi.h>
#include <stdio.h>

/* The action of job 1: the square of a number. */
static void square(const void *number, mtapi_size_t size, void *result, mtapi_size_t result_size, const void *data,
    mtapi_size_t data_size, mtapi_task_context_t *context)
{
    (void)size, (void)result_size, (void)data, (void)data_size, (void)context;
    *(int *)result = *(const int *)number * *(const int *)number;
}

int main(void)
{
    int numbers[10], squares[10];
    mtapi_status_t status;
    mtapi_initialize(1, 1, MTAPI_DEFAULT_NODE_ATTRIBUTES, MTAPI_NULL, &status);
    mtapi_action_create(1, square, MTAPI_NULL, 0, MTAPI_DEFAULT_ACTION_ATTRIBUTES, &status);
    mtapi_job_hndl_t job = mtapi_job_get(1, 1, &status);
    mtapi_group_hndl_t group = mtapi_group_create(MTAPI_GROUP_ID_NONE, MTAPI_DEFAULT_GROUP_ATTRIBUTES, &status);
    for (int i = 0; i < 10; i++) {
        numbers[i] = i;
        mtapi_task_start(MTAPI_TASK_ID_NONE, job, &numbers[i], sizeof(int), &squares[i], sizeof(int),
            MTAPI_DEFAULT_TASK_ATTRIBUTES, group, &status);
    }
    mtapi_group_wait_all(group, MTAPI_INFINITE, &status);
    for (int i = 0; status == MTAPI_SUCCESS && i < 10; i++) printf("%d\n", squares[i]);
    mtapi_finalize(&status);
    return status != MTAPI_SUCCESS;
}
