/* Groups of tasks. */
#include "glue.h"

const mtapi_group_hndl_t MTAPI_GROUP_NONE = {0};

mtapi_group_hndl_t mtapi_group_create(mtapi_group_id_t group_id, const mtapi_group_attributes_t *attributes,
    mtapi_status_t *status)
{
    (void)group_id;
    (void)attributes;
    mtapi_group_hndl_t group = {0};
    uint32_t who, code = glue_begin(&who);
    if (code == 0) code = mtapi_c_group_create(&glue.node, who, &group.handle);
    if (code == 0) glue.groups[SLOT(group.handle)] = (struct group_record){.handle = group.handle, .exact = true};
    glue_end(code, status);
    return group;
}

void mtapi_group_delete(mtapi_group_hndl_t group, mtapi_status_t *status)
{
    uint32_t who, code = glue_begin(&who);
    if (code == 0) code = mtapi_c_group_delete(&glue.node, who, group.handle);
    if (code == 0) {
        glue.groups[SLOT(group.handle)].handle = 0;
        glue_wake(FOR_ALL, group.handle);
        glue_wake(FOR_ANY, group.handle);
    }
    glue_end(code, status);
}

struct group_look {
    uint32_t who;
    uint64_t group;
    void *result;
};

/* Whether a look has freed all members: it was done, or the status is that of a member. */
static bool has_freed(uint32_t code)
{
    switch (code) {
    case MTAPI_C_PENDING:
    case MTAPI_TIMEOUT:
    case MTAPI_ERR_NODE_NOTINIT:
    case MTAPI_ERR_GROUP_INVALID:
    case MTAPI_ERR_SPENT: return false;
    default: return true;
    }
}

/* The status is the first that a member's action set, else the node's own. */
static uint32_t look_at_all(void *call, bool last)
{
    struct group_look *look = call;
    uint32_t code = mtapi_c_group_all_look(&glue.node, look->who, look->group, last);
    if (!has_freed(code)) return code;
    struct group_record *group = &glue.groups[SLOT(look->group)];
    if (group->first_failed) code = glue.tasks[group->first_failed - 1].status;
    *group = (struct group_record){.handle = look->group, .exact = true};
    return code;
}

static uint32_t look_at_any(void *call, bool last)
{
    struct group_look *look = call;
    uint64_t member = 0;
    int64_t numbers[NUMBERS];
    size_t count;
    uint32_t code = mtapi_c_group_any_look(&glue.node, look->who, look->group, last, &member, numbers, NUMBERS, &count);
    if (member == 0) return code;
    struct task_record *task = &glue.tasks[SLOT(member)];
    struct group_record *group = &glue.groups[SLOT(look->group)];
    if (task->state != ENDED) group->unended--;
    glue_forget_failure(task);
    look->result = task->result;
    return code ? code : task->status;
}

static uint32_t wait_for(enum wait_kind kind, struct group_look *look, mtapi_timeout_t timeout, look_function *function)
{
    uint32_t code = glue_begin(&look->who);
    if (code != 0) return code;
    if (timeout < MTAPI_INFINITE) return MTAPI_ERR_PARAMETER;
    return glue_wait(kind, look->group, timeout, function, look);
}

void mtapi_group_wait_all(mtapi_group_hndl_t group, mtapi_timeout_t timeout, mtapi_status_t *status)
{
    struct group_look look = {0, group.handle, NULL};
    uint32_t code = wait_for(FOR_ALL, &look, timeout, look_at_all);
    glue_end(code, status);
}

void mtapi_group_wait_any(mtapi_group_hndl_t group, void **result, mtapi_timeout_t timeout, mtapi_status_t *status)
{
    struct group_look look = {0, group.handle, NULL};
    uint32_t code = wait_for(FOR_ANY, &look, timeout, look_at_any);
    if (result) *result = look.result;
    glue_end(code, status);
}
