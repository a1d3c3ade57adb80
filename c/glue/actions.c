/* Actions and jobs. A function of C runs under the node's kind `echo`: its task's number is the address of its arguments, which the
 * node gives back as it is. */
#include "glue.h"

static void note_action(uint64_t handle, mtapi_action_function_t function, const void *data, mtapi_size_t size, uint64_t affinity)
{
    mtapi_affinity_t everywhere = ((mtapi_affinity_t)1 << glue.workers) - 1;
    glue.actions[SLOT(handle)] = (struct action_record){handle, function, data, size, affinity};
    if ((affinity & everywhere) != everywhere) glue.restricted = true;
    glue_ring_workers(true); /* tasks that wait may run by it too */
}

mtapi_action_hndl_t mtapi_action_create(mtapi_job_id_t job_id, mtapi_action_function_t function, const void *node_local_data,
    mtapi_size_t node_local_data_size, const mtapi_action_attributes_t *attributes, mtapi_status_t *status)
{
    mtapi_affinity_t affinity = attributes ? attributes->affinity : glue_default_action.affinity;
    mtapi_action_hndl_t action = {0};
    uint32_t who, code = glue_begin(&who);
    if (code == 0 && (!function || glue_is_missing(node_local_data, node_local_data_size))) code = MTAPI_ERR_PARAMETER;
    if (code == 0) code = mtapi_c_action_create(&glue.node, who, job_id, MTAPI_C_ECHO, affinity, &action.handle);
    if (code == 0) note_action(action.handle, function, node_local_data, node_local_data_size, affinity);
    glue_end(code, status);
    return action;
}

mtapi_job_hndl_t mtapi_job_get(mtapi_job_id_t job_id, mtapi_domain_t domain_id, mtapi_status_t *status)
{
    int64_t number = 0;
    mtapi_job_hndl_t job = {0};
    uint32_t who, code = glue_begin(&who);
    if (code == 0 && domain_id != glue.domain) code = MTAPI_ERR_DOMAIN_NOTSHARED;
    if (code == 0) code = mtapi_c_job_get(&glue.node, who, job_id, &number);
    if (code == 0) job.handle = (uint64_t)number;
    glue_end(code, status);
    return job;
}

/* Whether another thread runs a task by this action. */
static uint32_t look_for_runs(void *call, bool last)
{
    const uint64_t *action = call;
    for (uint32_t i = 0; i < glue.workers; i++) {
        if (glue.worker[i].action != *action) continue;
        if (glue_context && glue_context->core == i) continue;
        return last ? MTAPI_TIMEOUT : MTAPI_C_PENDING;
    }
    return 0;
}

typedef uint32_t action_call(mtapi_c_node *node, uint32_t who, uint64_t action);

/* Deletes or disables it, and waits for what runs. */
static uint32_t stop_action(action_call *stop, uint64_t action, mtapi_timeout_t timeout, bool deleted)
{
    uint32_t who, code = glue_begin(&who);
    if (code == 0 && timeout < MTAPI_INFINITE) code = MTAPI_ERR_PARAMETER;
    if (code == 0) code = stop(&glue.node, who, action);
    if (code != 0) return code;
    if (deleted) glue.actions[SLOT(action)].handle = 0;
    glue_many_ended();
    return glue_wait(FOR_ACTION, action, timeout, look_for_runs, &action);
}

void mtapi_action_delete(mtapi_action_hndl_t action, mtapi_timeout_t timeout, mtapi_status_t *status)
{
    uint32_t code = stop_action(mtapi_c_action_delete, action.handle, timeout, true);
    glue_end(code, status);
}

void mtapi_action_disable(mtapi_action_hndl_t action, mtapi_timeout_t timeout, mtapi_status_t *status)
{
    uint32_t code = stop_action(mtapi_c_action_disable, action.handle, timeout, false);
    glue_end(code, status);
}

void mtapi_action_enable(mtapi_action_hndl_t action, mtapi_status_t *status)
{
    uint32_t who, code = glue_begin(&who);
    if (code == 0) code = mtapi_c_action_enable(&glue.node, who, action.handle);
    if (code == 0) glue_ring_workers(true);
    glue_end(code, status);
}
