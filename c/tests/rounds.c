/* A hundred nodes, one after another, each with some work. */
#include "check.h"

enum { ROUNDS = 100, TASKS = 20 };

ACTION(add_one)
{
    UNUSED;
    *(int *)result = *(const int *)arguments + 1;
}

int main(void)
{
    for (int round = 0; round < ROUNDS; round++) {
        int arguments[TASKS], results[TASKS];
        mtapi_status_t status;
        begin(1 + (unsigned)round % 4);
        mtapi_job_hndl_t job = job_of(1, add_one);
        mtapi_group_hndl_t group = mtapi_group_create(MTAPI_GROUP_ID_NONE, NULL, &status);
        OK;
        for (int i = 0; i < TASKS; i++) {
            arguments[i] = round + i;
            mtapi_task_start(1, job, &arguments[i], sizeof(int), &results[i], sizeof(int), NULL, group, &status);
            OK;
        }
        if (round % 2) {
            mtapi_group_wait_all(group, MTAPI_INFINITE, &status);
            OK;
        }
        end("rounds"); /* which waits for them too */
        for (int i = 0; i < TASKS; i++) CHECK(results[i] == round + i + 1);
    }
    return 0;
}
