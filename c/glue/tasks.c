/* Tasks: started, put into queues, waited for and cancelled. */
#include "glue.h"

struct group_record *glue_group_of(const struct task_record *task)
{
    struct group_record *group = &glue.groups[SLOT(task->group) % MOST_GROUPS];
    return task->group && group->handle == task->group ? group : NULL;
}

void glue_count_end(struct task_record *task)
{
    struct group_record *group = glue_group_of(task);
    task->state = ENDED;
    if (group) group->unended--;
    if (!glue.waiters) return;
    if (!group) {
        glue_wake(FOR_TASK, task->handle);
        return;
    }
    glue_wake(FOR_ANY, task->group);
    if (!group->exact || group->unended == 0) glue_wake(FOR_ALL, task->group);
}

/* The glue doesn't know which tasks ended, so all look again, and of the groups no count holds. */
void glue_many_ended(void)
{
    for (uint32_t i = 0; i < glue.attributes.max_groups; i++)
        if (glue.groups[i].handle && glue.groups[i].unended) glue.groups[i].exact = false;
    glue_wake_all();
    glue_ring_workers(true);
}

void glue_forget_failure(struct task_record *task)
{
    struct group_record *group = glue_group_of(task);
    uint32_t number = (uint32_t)(task - glue.tasks) + 1, before = 0;
    if (!group || task->status == MTAPI_SUCCESS) return;
    for (uint32_t each = group->first_failed; each; before = each, each = glue.tasks[each - 1].next_failed) {
        if (each != number) continue;
        if (before) glue.tasks[before - 1].next_failed = task->next_failed;
        else group->first_failed = task->next_failed;
        if (group->last_failed == number) group->last_failed = before;
        return;
    }
}

/* What is asked for with a task, beside its job or its queue. */
struct order {
    int64_t numbers[NUMBERS];
    mtapi_size_t arguments_size, result_size;
    void *result;
    mtapi_task_attributes_t attributes;
    uint64_t group, queue;
};

static struct order order_of(const void *arguments, mtapi_size_t arguments_size, void *result, mtapi_size_t result_size,
    const mtapi_task_attributes_t *attributes, uint64_t group, uint64_t queue)
{
    struct order order = {
        {(int64_t)(uintptr_t)arguments}, arguments_size, result_size, result, attributes ? *attributes : glue_default_task, group,
        queue};
    return order;
}

static bool is_short_of_bytes(const void *arguments, const struct order *order)
{
    return glue_is_missing(arguments, order->arguments_size) || glue_is_missing(order->result, order->result_size);
}

/* Notes a new task, and calls a worker that may take it. */
static void note_start(uint64_t handle, const struct order *order)
{
    struct task_record *task = &glue.tasks[SLOT(handle)];
    mtapi_affinity_t everywhere = ((mtapi_affinity_t)1 << glue.workers) - 1;
    task->handle = handle;
    task->group = order->group;
    task->queue = order->queue;
    task->arguments_size = order->arguments_size;
    task->result = order->result;
    task->result_size = order->result_size;
    task->attributes = order->attributes;
    task->state = SCHEDULED;
    task->status = MTAPI_SUCCESS;
    atomic_store_explicit(&task->cancel_asked, false, memory_order_relaxed);
    struct group_record *group = glue_group_of(task);
    if (group) group->unended++;
    if ((order->attributes.affinity & everywhere) != everywhere) glue.restricted = true;
    glue_ring_workers(glue.restricted);
}

mtapi_task_hndl_t mtapi_task_start(mtapi_task_id_t task_id, mtapi_job_hndl_t job, const void *arguments,
    mtapi_size_t arguments_size, void *result_buffer, mtapi_size_t result_size, const mtapi_task_attributes_t *attributes,
    mtapi_group_hndl_t group, mtapi_status_t *status)
{
    (void)task_id;
    struct order o = order_of(arguments, arguments_size, result_buffer, result_size, attributes, group.handle, 0);
    mtapi_task_hndl_t task = {0};
    uint32_t who, code = glue_begin(&who);
    if (code == 0 && is_short_of_bytes(arguments, &o)) code = MTAPI_ERR_PARAMETER;
    if (code == 0 && job.handle > UINT32_MAX) code = MTAPI_ERR_JOB_INVALID;
    if (code == 0)
        code = mtapi_c_task_start(&glue.node, who, (uint32_t)job.handle, o.numbers, NUMBERS, o.attributes.priority,
            o.attributes.affinity, o.attributes.is_detached != 0, o.group, &task.handle);
    if (code == 0) note_start(task.handle, &o);
    glue_end(code, status);
    return task;
}

mtapi_task_hndl_t mtapi_task_enqueue(mtapi_task_id_t task_id, mtapi_queue_hndl_t queue, const void *arguments,
    mtapi_size_t arguments_size, void *result_buffer, mtapi_size_t result_size, const mtapi_task_attributes_t *attributes,
    mtapi_group_hndl_t group, mtapi_status_t *status)
{
    (void)task_id;
    struct order o = order_of(arguments, arguments_size, result_buffer, result_size, attributes, group.handle, queue.handle);
    mtapi_task_hndl_t task = {0};
    uint32_t who, code = glue_begin(&who);
    if (code == 0 && is_short_of_bytes(arguments, &o)) code = MTAPI_ERR_PARAMETER;
    if (code == 0)
        code = mtapi_c_task_enqueue(&glue.node, who, queue.handle, o.numbers, NUMBERS, o.attributes.affinity,
            o.attributes.is_detached != 0, o.group, &task.handle);
    if (code == 0) {
        o.attributes.priority = glue.queues[SLOT(queue.handle)].attributes.priority;
        note_start(task.handle, &o);
    }
    glue_end(code, status);
    return task;
}

struct task_look {
    uint32_t who;
    uint64_t task;
};

/* Whether a look has told the end of the task, which isn't there any more then. */
static bool has_ended(uint32_t code)
{
    switch (code) {
    case MTAPI_C_PENDING:
    case MTAPI_TIMEOUT:
    case MTAPI_ERR_PARAMETER:
    case MTAPI_ERR_NODE_NOTINIT:
    case MTAPI_ERR_TASK_INVALID:
    case MTAPI_ERR_WAIT_PENDING:
    case MTAPI_ERR_SPENT: return false;
    default: return true;
    }
}

/* One that ended gives its status: what its action set, or how the node ended it. */
static uint32_t look_at_task(void *call, bool last)
{
    struct task_look *look = call;
    int64_t numbers[NUMBERS];
    size_t count;
    uint32_t code = mtapi_c_task_look(&glue.node, look->who, look->task, last, numbers, NUMBERS, &count);
    if (!has_ended(code)) return code;
    struct task_record *task = &glue.tasks[SLOT(look->task)];
    task->handle = 0;
    return code ? code : task->status;
}

static uint32_t wait_for(struct task_look *look, mtapi_timeout_t timeout)
{
    if (timeout < MTAPI_INFINITE) return MTAPI_ERR_PARAMETER;
    return glue_wait(FOR_TASK, look->task, timeout, look_at_task, look);
}

void mtapi_task_wait(mtapi_task_hndl_t task, mtapi_timeout_t timeout, mtapi_status_t *status)
{
    struct task_look look = {0, task.handle};
    uint32_t code = glue_begin(&look.who);
    if (code == 0) code = wait_for(&look, timeout);
    glue_end(code, status);
}

/* A task that hasn't begun has ended with this; one that runs is told when it asks. */
static void note_cancel(uint64_t handle)
{
    struct task_record *task = &glue.tasks[SLOT(handle)];
    atomic_store(&task->cancel_asked, true);
    if (task->state == SCHEDULED) glue_count_end(task);
    glue_ring_workers(true); /* the next one of an ordered queue may be ready now */
}

void mtapi_task_cancel(mtapi_task_hndl_t task, mtapi_status_t *status)
{
    uint32_t who, code = glue_begin(&who);
    if (code == 0) code = mtapi_c_task_cancel(&glue.node, who, task.handle);
    if (code == 0) note_cancel(task.handle);
    glue_end(code, status);
}
