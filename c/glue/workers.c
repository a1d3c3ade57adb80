/* What a worker's thread does: it takes tasks until none will come any more, and runs their actions. */
#include "glue.h"

/* What a worker took, and the action that runs it. */
struct run {
    mtapi_c_picked picked;
    int64_t numbers[NUMBERS];
    mtapi_size_t arguments_size, result_size;
    void *result;
    struct action_record action;
};

/* The action of a task, as C calls it. The lock isn't held. */
static mtapi_status_t call_action(const struct run *run, uint32_t core)
{
    mtapi_task_context_t context = {core, run->picked.task, MTAPI_SUCCESS};
    glue_context = &context;
    run->action.function((const void *)(uintptr_t)run->numbers[0], run->arguments_size, run->result, run->result_size,
        run->action.data, run->action.size, &context);
    glue_context = NULL;
    return context.status;
}

static void note_begin(struct worker *worker, struct run *run)
{
    struct task_record *task = &glue.tasks[SLOT(run->picked.task)];
    run->action = glue.actions[SLOT(run->picked.action)];
    run->arguments_size = task->arguments_size;
    run->result = task->result;
    run->result_size = task->result_size;
    task->state = RUNNING;
    worker->task = run->picked.task;
    worker->action = run->picked.action;
    worker->queue = task->queue;
}

/* Puts a member that set a status behind those of its group that did before. */
static void note_failure(struct task_record *task)
{
    struct group_record *group = glue_group_of(task);
    uint32_t number = (uint32_t)(task - glue.tasks) + 1;
    if (!group) return;
    task->next_failed = 0;
    if (group->first_failed) glue.tasks[group->last_failed - 1].next_failed = number;
    else group->first_failed = number;
    group->last_failed = number;
}

static void note_end(struct worker *worker, mtapi_status_t status)
{
    struct task_record *task = &glue.tasks[SLOT(worker->task)];
    uint64_t action = worker->action, queue = worker->queue;
    worker->task = worker->action = worker->queue = 0;
    task->status = status;
    if (status != MTAPI_SUCCESS) note_failure(task);
    glue_count_end(task);
    if (glue.waiters) {
        glue_wake(FOR_ACTION, action);
        if (queue) glue_wake(FOR_QUEUE, queue);
    }
    if (glue.restricted || glue.closing) glue_ring_workers(true);
}

void *glue_serve(void *place)
{
    struct worker *worker = place;
    uint32_t me = (uint32_t)(worker - glue.worker);
    struct run run;
    glue_lock();
    glue_sit_as_worker(me);
    for (;;) {
        uint32_t code = mtapi_c_pick(&glue.node, me, &run.picked, run.numbers, NUMBERS);
        if (code == MTAPI_C_IDLE) {
            unsigned rings = worker->rings = glue_work_rings();
            worker->is_idle = true;
            glue_wake_stuck();
            glue_unlock();
            glue_hear_work(rings);
            glue_lock();
            worker->is_idle = false;
            continue;
        }
        if (code != 0) break; /* MTAPI_C_STOP, or the node's turns are used up */
        note_begin(worker, &run);
        glue_unlock();
        mtapi_status_t status = call_action(&run, me);
        glue_lock();
        mtapi_c_finish(&glue.node, me, run.picked.task, run.picked.kind, run.numbers, run.picked.count);
        note_end(worker, status);
    }
    glue_unlock();
    return NULL;
}
