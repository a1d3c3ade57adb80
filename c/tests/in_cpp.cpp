// Both headers from C++.
#include "../mrapi.h"
#include "../mtapi.h"
#include <cstdlib>

namespace {

void square(const void *arguments, mtapi_size_t, void *result, mtapi_size_t, const void *, mtapi_size_t, mtapi_task_context_t *)
{
    const int number = *static_cast<const int *>(arguments);
    *static_cast<int *>(result) = number * number;
}

void want(mtapi_status_t status)
{
    if (status != MTAPI_SUCCESS) std::exit(1);
}

} // namespace

int main()
{
    mtapi_status_t status;
    mtapi_uint_t workers = 2;
    mtapi_node_attributes_t attributes;
    mtapi_nodeattr_init(&attributes, &status);
    want(status);
    mtapi_nodeattr_set(&attributes, MTAPI_NODE_NUMCORES, &workers, sizeof workers, &status);
    want(status);
    mtapi_initialize(1, 1, &attributes, MTAPI_NULL, &status);
    want(status);
    mtapi_action_create(1, square, MTAPI_NULL, 0, MTAPI_DEFAULT_ACTION_ATTRIBUTES, &status);
    want(status);
    int number = 12, result = 0;
    mtapi_task_hndl_t task = mtapi_task_start(MTAPI_TASK_ID_NONE, mtapi_job_get(1, 1, &status), &number, sizeof number, &result,
        sizeof result, MTAPI_DEFAULT_TASK_ATTRIBUTES, MTAPI_GROUP_NONE, &status);
    want(status);
    mtapi_task_wait(task, MTAPI_INFINITE, &status);
    want(status);
    mrapi_sem_hndl_t sem = mrapi_sem_create(MRAPI_SEM_ID_ANY, MRAPI_NULL, 1, &status);
    want(status);
    mrapi_sem_lock(sem, MRAPI_TIMEOUT_INFINITE, &status);
    want(status);
    mtapi_finalize(&status);
    want(status);
    return result == 144 ? 0 : 1;
}
