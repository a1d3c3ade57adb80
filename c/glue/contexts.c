/* What an action asks of the task that it runs. The context is its worker's own, so no lock is needed. */
#include "glue.h"

static uint32_t check(const mtapi_task_context_t *context)
{
    if (!context) return MTAPI_ERR_CONTEXT_INVALID;
    return context == glue_context ? MTAPI_SUCCESS : MTAPI_ERR_CONTEXT_OUTOFCONTEXT;
}

/* Numbers that the glue reads as something else than a status aren't taken. */
void mtapi_context_status_set(mtapi_task_context_t *task_context, mtapi_status_t error_code, mtapi_status_t *status)
{
    uint32_t code = check(task_context);
    if (code == 0 && error_code >= MTAPI_C_PENDING && error_code <= MTAPI_C_NO_JOURNAL) code = MTAPI_ERR_PARAMETER;
    if (code == 0) task_context->status = error_code;
    glue_say(status, code);
}

void mtapi_context_runtime_notify(const mtapi_task_context_t *task_context, mtapi_notification_t notification,
    const void *data, mtapi_size_t data_size, mtapi_status_t *status)
{
    (void)task_context;
    (void)notification;
    (void)data;
    (void)data_size;
    glue_say(status, MTAPI_ERR_FUNC_NOT_IMPLEMENTED);
}

/* The record is this task's until its action returns. */
mtapi_task_state_t mtapi_context_taskstate_get(const mtapi_task_context_t *task_context, mtapi_status_t *status)
{
    uint32_t code = check(task_context);
    mtapi_task_state_t state = 0;
    if (code == 0)
        state = atomic_load(&glue.tasks[SLOT(task_context->task)].cancel_asked) ? MTAPI_TASK_CANCELLED : MTAPI_TASK_RUNNING;
    glue_say(status, code);
    return state;
}

/* A task has one instance, with the number 0. */
mtapi_uint_t mtapi_context_instnum_get(const mtapi_task_context_t *task_context, mtapi_status_t *status)
{
    glue_say(status, check(task_context));
    return 0;
}

mtapi_uint_t mtapi_context_numinst_get(const mtapi_task_context_t *task_context, mtapi_status_t *status)
{
    uint32_t code = check(task_context);
    glue_say(status, code);
    return code ? 0 : 1;
}

mtapi_uint_t mtapi_context_corenum_get(const mtapi_task_context_t *task_context, mtapi_status_t *status)
{
    uint32_t code = check(task_context);
    glue_say(status, code);
    return code ? 0 : task_context->core;
}
