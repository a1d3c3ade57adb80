/* Queues of tasks. */
#include "glue.h"

/* Gives a free id to one that was given none. */
static uint32_t create(uint32_t who, mtapi_queue_id_t id, uint64_t job, const mtapi_queue_attributes_t *a, uint64_t *queue)
{
    bool any = id == MTAPI_QUEUE_ID_NONE;
    uint32_t code;
    if (job > UINT32_MAX) return MTAPI_ERR_JOB_INVALID;
    do {
        code = mtapi_c_queue_create(&glue.node, who, any ? glue.next_id-- : id, (uint32_t)job, a->priority, a->limit,
            a->ordered != 0, a->retain != 0, queue);
    } while (any && code == MTAPI_ERR_QUEUE_EXISTS);
    return code;
}

mtapi_queue_hndl_t mtapi_queue_create(mtapi_queue_id_t queue_id, mtapi_job_hndl_t job, const mtapi_queue_attributes_t *attributes,
    mtapi_status_t *status)
{
    mtapi_queue_attributes_t a = attributes ? *attributes : glue_default_queue;
    mtapi_queue_hndl_t queue = {0};
    uint32_t who, code = glue_begin(&who);
    if (code == 0) code = create(who, queue_id, job.handle, &a, &queue.handle);
    if (code == 0) glue.queues[SLOT(queue.handle)] = (struct queue_record){queue.handle, a};
    glue_end(code, status);
    return queue;
}

mtapi_queue_hndl_t mtapi_queue_get(mtapi_queue_id_t queue_id, mtapi_domain_t domain_id, mtapi_status_t *status)
{
    mtapi_queue_hndl_t queue = {0};
    uint32_t who, code = glue_begin(&who);
    if (code == 0 && domain_id != glue.domain) code = MTAPI_ERR_DOMAIN_NOTSHARED;
    if (code == 0) code = mtapi_c_queue_get(&glue.node, who, queue_id, &queue.handle);
    glue_end(code, status);
    return queue;
}

/* Whether another thread runs a task of this queue. */
static uint32_t look_for_runs(void *call, bool last)
{
    const uint64_t *queue = call;
    for (uint32_t i = 0; i < glue.workers; i++) {
        if (glue.worker[i].queue != *queue) continue;
        if (glue_context && glue_context->core == i) continue;
        return last ? MTAPI_TIMEOUT : MTAPI_C_PENDING;
    }
    return 0;
}

typedef uint32_t queue_call(mtapi_c_node *node, uint32_t who, uint64_t queue);

/* Deletes or disables it, and waits for what runs. */
static uint32_t stop_queue(queue_call *stop, uint64_t queue, mtapi_timeout_t timeout, bool deleted)
{
    uint32_t who, code = glue_begin(&who);
    if (code == 0 && timeout < MTAPI_INFINITE) code = MTAPI_ERR_PARAMETER;
    if (code == 0) code = stop(&glue.node, who, queue);
    if (code != 0) return code;
    if (deleted) glue.queues[SLOT(queue)].handle = 0;
    glue_many_ended();
    return glue_wait(FOR_QUEUE, queue, timeout, look_for_runs, &queue);
}

void mtapi_queue_delete(mtapi_queue_hndl_t queue, mtapi_timeout_t timeout, mtapi_status_t *status)
{
    uint32_t code = stop_queue(mtapi_c_queue_delete, queue.handle, timeout, true);
    glue_end(code, status);
}

void mtapi_queue_disable(mtapi_queue_hndl_t queue, mtapi_timeout_t timeout, mtapi_status_t *status)
{
    uint32_t code = stop_queue(mtapi_c_queue_disable, queue.handle, timeout, false);
    glue_end(code, status);
}

void mtapi_queue_enable(mtapi_queue_hndl_t queue, mtapi_status_t *status)
{
    uint32_t who, code = glue_begin(&who);
    if (code == 0) code = mtapi_c_queue_enable(&glue.node, who, queue.handle);
    if (code == 0) glue_ring_workers(true);
    glue_end(code, status);
}
