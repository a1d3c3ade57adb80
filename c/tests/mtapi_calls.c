/* Each call of MTAPI with its plain answer, and each of its refusals. */
#include "check.h"
#include <stdatomic.h>
#include <string.h>

#define AS_VALUE(value) MTAPI_ATTRIBUTE_VALUE(value), MTAPI_ATTRIBUTE_POINTER_AS_VALUE

static atomic_int gate;
static const mtapi_task_hndl_t no_task = {0};

ACTION(at_gate)
{
    UNUSED;
    while (!atomic_load(&gate)) NAP(1);
}

static mtapi_task_attributes_t detached(void)
{
    mtapi_status_t status;
    mtapi_task_attributes_t attributes;
    mtapi_taskattr_init(&attributes, &status);
    OK;
    mtapi_taskattr_set(&attributes, MTAPI_TASK_DETACHED, AS_VALUE(MTAPI_TRUE), &status);
    OK;
    return attributes;
}

static mtapi_group_hndl_t new_group(void)
{
    mtapi_status_t status;
    mtapi_group_hndl_t group = mtapi_group_create(MTAPI_GROUP_ID_NONE, MTAPI_DEFAULT_GROUP_ATTRIBUTES, &status);
    OK;
    return group;
}

/* No call but mtapi_initialize is of use without a node. */
static void without_a_node(void)
{
    mtapi_status_t status;
    mtapi_uint_t value;
    mtapi_action_hndl_t action = {0};
    mtapi_queue_hndl_t queue = {0};
    mtapi_job_hndl_t job = {1};
    mtapi_finalize(&status);
    WANT(MTAPI_ERR_NODE_NOTINIT);
    mtapi_ext_finalize(NULL, &status);
    WANT(MTAPI_ERR_NODE_NOTINIT);
    mtapi_domain_id_get(&status);
    WANT(MTAPI_ERR_NODE_NOTINIT);
    mtapi_node_id_get(&status);
    WANT(MTAPI_ERR_NODE_NOTINIT);
    mtapi_node_get_attribute(1, MTAPI_NODE_NUMCORES, &value, sizeof value, &status);
    WANT(MTAPI_ERR_NODE_NOTINIT);
    CHECK(mtapi_action_create(1, at_gate, NULL, 0, NULL, &status).handle == 0);
    WANT(MTAPI_ERR_NODE_NOTINIT);
    mtapi_action_delete(action, MTAPI_NOWAIT, &status);
    WANT(MTAPI_ERR_NODE_NOTINIT);
    mtapi_action_disable(action, MTAPI_NOWAIT, &status);
    WANT(MTAPI_ERR_NODE_NOTINIT);
    mtapi_action_enable(action, &status);
    WANT(MTAPI_ERR_NODE_NOTINIT);
    mtapi_action_get_attribute(action, MTAPI_ACTION_GLOBAL, &value, sizeof value, &status);
    WANT(MTAPI_ERR_NODE_NOTINIT);
    mtapi_job_get(1, 1, &status);
    WANT(MTAPI_ERR_NODE_NOTINIT);
    mtapi_task_start(1, job, NULL, 0, NULL, 0, NULL, MTAPI_GROUP_NONE, &status);
    WANT(MTAPI_ERR_NODE_NOTINIT);
    mtapi_task_enqueue(1, queue, NULL, 0, NULL, 0, NULL, MTAPI_GROUP_NONE, &status);
    WANT(MTAPI_ERR_NODE_NOTINIT);
    mtapi_task_get_attribute(no_task, MTAPI_TASK_PRIORITY, &value, sizeof value, &status);
    WANT(MTAPI_ERR_NODE_NOTINIT);
    mtapi_task_cancel(no_task, &status);
    WANT(MTAPI_ERR_NODE_NOTINIT);
    mtapi_task_wait(no_task, MTAPI_NOWAIT, &status);
    WANT(MTAPI_ERR_NODE_NOTINIT);
    mtapi_group_create(1, NULL, &status);
    WANT(MTAPI_ERR_NODE_NOTINIT);
    mtapi_group_wait_all(MTAPI_GROUP_NONE, MTAPI_NOWAIT, &status);
    WANT(MTAPI_ERR_NODE_NOTINIT);
    mtapi_group_wait_any(MTAPI_GROUP_NONE, NULL, MTAPI_NOWAIT, &status);
    WANT(MTAPI_ERR_NODE_NOTINIT);
    mtapi_group_delete(MTAPI_GROUP_NONE, &status);
    WANT(MTAPI_ERR_NODE_NOTINIT);
    mtapi_queue_create(1, job, NULL, &status);
    WANT(MTAPI_ERR_NODE_NOTINIT);
    mtapi_queue_get(1, 1, &status);
    WANT(MTAPI_ERR_NODE_NOTINIT);
    mtapi_queue_get_attribute(queue, MTAPI_QUEUE_LIMIT, &value, sizeof value, &status);
    WANT(MTAPI_ERR_NODE_NOTINIT);
    mtapi_queue_enable(queue, &status);
    WANT(MTAPI_ERR_NODE_NOTINIT);
    mtapi_queue_disable(queue, MTAPI_NOWAIT, &status);
    WANT(MTAPI_ERR_NODE_NOTINIT);
    mtapi_queue_delete(queue, MTAPI_NOWAIT, &status);
    WANT(MTAPI_ERR_NODE_NOTINIT);
    mtapi_finalize(NULL); /* each status may be left out */
}

static void nodes(void)
{
    mtapi_status_t status;
    mtapi_info_t info;
    mtapi_node_attributes_t attributes = settings(3);
    attributes.max_tasks = 0;
    mtapi_initialize(7, 8, &attributes, &info, &status);
    WANT(MTAPI_ERR_PARAMETER);
    attributes.max_tasks = 10;
    mtapi_initialize(7, 8, &attributes, &info, &status);
    OK;
    CHECK(info.mtapi_version == 0x0100 && info.number_of_domains == 1 && info.number_of_nodes == 1);
    CHECK(info.hardware_concurrency == 3);
    mtapi_initialize(7, 8, &attributes, &info, &status);
    WANT(MTAPI_ERR_NODE_INITIALIZED);
    CHECK(mtapi_domain_id_get(&status) == 7);
    OK;
    CHECK(mtapi_node_id_get(&status) == 8);
    OK;
    end("nodes");
    mtapi_initialize(1, 1, MTAPI_DEFAULT_NODE_ATTRIBUTES, MTAPI_NULL, &status);
    OK;
    mtapi_ext_finalize(stdout, &status); /* it keeps no journal, and ends all the same */
    WANT(MTAPI_EXT_ERR_JOURNAL);
}

/* Attributes of a node, and how a value is given. */
static void node_attributes(void)
{
    static const struct { mtapi_uint_t number, least, most; } ranges[9] = {{MTAPI_NODE_NUMCORES, 1, 16},
        {MTAPI_NODE_MAX_TASKS, 1, 65536}, {MTAPI_NODE_MAX_ACTIONS, 1, 1024}, {MTAPI_NODE_MAX_GROUPS, 1, 1024},
        {MTAPI_NODE_MAX_QUEUES, 1, 256}, {MTAPI_EXT_NODE_MAX_OBJECTS, 1, 256}, {MTAPI_NODE_MAX_PRIORITIES, 1, 8},
        {MTAPI_EXT_NODE_GENERATIONS, 1, 4294967295u}, {MTAPI_EXT_NODE_JOURNAL, 0, 1}};
    mtapi_status_t status;
    mtapi_node_attributes_t attributes = settings(2);
    mtapi_uint_t value;
    for (int i = 0; i < 9; i++) {
        if (ranges[i].most < 4294967295u) {
            value = ranges[i].most + 1;
            mtapi_nodeattr_set(&attributes, ranges[i].number, &value, sizeof value, &status);
            WANT(MTAPI_ERR_PARAMETER);
        }
        if (ranges[i].least > 0) {
            mtapi_nodeattr_set(&attributes, ranges[i].number, AS_VALUE(ranges[i].least - 1), &status);
            WANT(MTAPI_ERR_PARAMETER);
        }
        value = ranges[i].least + (ranges[i].least < ranges[i].most);
        mtapi_nodeattr_set(&attributes, ranges[i].number, &value, sizeof value, &status);
        OK;
    }
    mtapi_nodeattr_set(&attributes, MTAPI_NODE_NUMCORES, &value, sizeof value - 1, &status);
    WANT(MTAPI_ERR_ATTR_SIZE);
    mtapi_nodeattr_set(&attributes, MTAPI_NODE_NUMCORES, NULL, sizeof value, &status);
    WANT(MTAPI_ERR_PARAMETER);
    mtapi_nodeattr_set(&attributes, MTAPI_NODE_NUMCORES, MTAPI_ATTRIBUTE_VALUE(0x100000002), 0, &status);
    WANT(MTAPI_ERR_PARAMETER);
    mtapi_nodeattr_set(&attributes, 10, AS_VALUE(1), &status);
    WANT(MTAPI_ERR_ATTR_NUM);
    for (mtapi_uint_t each = MTAPI_NODE_CORE_AFFINITY; each <= MTAPI_NODE_MAX_ACTIONS_PER_JOB; each++) {
        mtapi_nodeattr_set(&attributes, each, AS_VALUE(1), &status);
        WANT(MTAPI_ERR_FUNC_NOT_IMPLEMENTED);
    }
    mtapi_nodeattr_set(NULL, MTAPI_NODE_NUMCORES, AS_VALUE(1), &status);
    WANT(MTAPI_ERR_PARAMETER);
    mtapi_nodeattr_init(NULL, &status);
    WANT(MTAPI_ERR_PARAMETER);
    mtapi_initialize(1, 1, &attributes, NULL, &status);
    OK;
    for (int i = 0; i < 9; i++) {
        value = 0;
        mtapi_node_get_attribute(1, ranges[i].number, &value, sizeof value, &status);
        OK;
        CHECK(value == ranges[i].least + (ranges[i].least < ranges[i].most));
    }
    mtapi_node_get_attribute(1, MTAPI_NODE_NUMCORES, &value, 1, &status);
    WANT(MTAPI_ERR_ATTR_SIZE);
    mtapi_node_get_attribute(1, MTAPI_NODE_NUMCORES, NULL, sizeof value, &status);
    WANT(MTAPI_ERR_PARAMETER);
    mtapi_node_get_attribute(1, 10, &value, sizeof value, &status);
    WANT(MTAPI_ERR_ATTR_NUM);
    mtapi_node_get_attribute(1, MTAPI_NODE_TYPE, &value, MTAPI_NODE_TYPE_SIZE, &status);
    WANT(MTAPI_ERR_FUNC_NOT_IMPLEMENTED);
    mtapi_nodeattr_set(&attributes, MTAPI_NODE_TYPE, AS_VALUE(MTAPI_NODE_TYPE_SMP), &status);
    WANT(MTAPI_ERR_FUNC_NOT_IMPLEMENTED);
    end("node_attributes");
}

static void actions(void)
{
    mtapi_status_t status;
    mtapi_node_attributes_t attributes = settings(1);
    mtapi_action_attributes_t action_attributes;
    mtapi_affinity_t mask = 5, got = 0;
    mtapi_uint_t value = 9;
    attributes.max_actions = 2;
    mtapi_initialize(1, 1, &attributes, NULL, &status);
    OK;
    mtapi_actionattr_init(&action_attributes, &status);
    OK;
    mtapi_actionattr_set(&action_attributes, MTAPI_ACTION_AFFINITY, &mask, sizeof mask, &status);
    OK;
    mtapi_actionattr_set(&action_attributes, MTAPI_ACTION_AFFINITY, &mask, 4, &status);
    WANT(MTAPI_ERR_ATTR_SIZE);
    mtapi_actionattr_set(&action_attributes, MTAPI_ACTION_GLOBAL, AS_VALUE(1), &status);
    WANT(MTAPI_ERR_ATTR_READONLY);
    mtapi_actionattr_set(&action_attributes, MTAPI_ACTION_DOMAIN_SHARED, AS_VALUE(1), &status);
    WANT(MTAPI_ERR_ATTR_READONLY);
    mtapi_actionattr_set(&action_attributes, 4, AS_VALUE(1), &status);
    WANT(MTAPI_ERR_ATTR_NUM);
    mtapi_actionattr_set(NULL, MTAPI_ACTION_AFFINITY, &mask, sizeof mask, &status);
    WANT(MTAPI_ERR_PARAMETER);
    mtapi_actionattr_init(NULL, &status);
    WANT(MTAPI_ERR_PARAMETER);
    mtapi_job_get(1, 1, &status);
    WANT(MTAPI_ERR_JOB_INVALID);
    CHECK(mtapi_action_create(0, at_gate, NULL, 0, NULL, &status).handle == 0);
    WANT(MTAPI_ERR_JOB_INVALID);
    mtapi_action_create(65536, at_gate, NULL, 0, NULL, &status);
    WANT(MTAPI_ERR_JOB_INVALID);
    mtapi_action_create(1, NULL, NULL, 0, NULL, &status);
    WANT(MTAPI_ERR_PARAMETER);
    mtapi_action_create(1, at_gate, NULL, 1, NULL, &status);
    WANT(MTAPI_ERR_PARAMETER);
    mtapi_action_hndl_t action = mtapi_action_create(1, at_gate, NULL, 0, &action_attributes, &status);
    OK;
    CHECK(mtapi_job_get(1, 1, &status).handle == 1);
    OK;
    CHECK(mtapi_job_get(1, 2, &status).handle == 0);
    WANT(MTAPI_ERR_DOMAIN_NOTSHARED);
    mtapi_job_get(2, 2, &status); /* nor is it said whether the other domain has it */
    WANT(MTAPI_ERR_DOMAIN_NOTSHARED);
    mtapi_action_create(1, at_gate, NULL, 0, NULL, &status);
    OK;
    mtapi_action_create(1, at_gate, NULL, 0, NULL, &status);
    WANT(MTAPI_ERR_ACTION_LIMIT);
    mtapi_action_get_attribute(action, MTAPI_ACTION_AFFINITY, &got, sizeof got, &status);
    OK;
    CHECK(got == 5);
    mtapi_action_get_attribute(action, MTAPI_ACTION_AFFINITY, &got, 4, &status);
    WANT(MTAPI_ERR_ATTR_SIZE);
    mtapi_action_get_attribute(action, MTAPI_ACTION_AFFINITY, NULL, sizeof got, &status);
    WANT(MTAPI_ERR_PARAMETER);
    mtapi_action_get_attribute(action, MTAPI_ACTION_GLOBAL, &value, sizeof value, &status);
    OK;
    CHECK(value == MTAPI_FALSE);
    mtapi_action_get_attribute(action, 4, &value, sizeof value, &status);
    WANT(MTAPI_ERR_ATTR_NUM);
    mtapi_action_set_attribute(action, MTAPI_ACTION_AFFINITY, &mask, sizeof mask, &status);
    WANT(MTAPI_ERR_FUNC_NOT_IMPLEMENTED);
    mtapi_action_disable(action, MTAPI_INFINITE, &status);
    OK;
    mtapi_action_enable(action, &status);
    OK;
    mtapi_action_delete(action, -5, &status);
    WANT(MTAPI_ERR_PARAMETER);
    mtapi_action_disable(action, -2, &status);
    WANT(MTAPI_ERR_PARAMETER);
    mtapi_action_delete(action, MTAPI_INFINITE, &status);
    OK;
    mtapi_action_hndl_t wrong[3] = {action, FOREIGN(mtapi_action_hndl_t), {new_group().handle}};
    for (int i = 0; i < 3; i++) {
        mtapi_action_delete(wrong[i], MTAPI_INFINITE, &status);
        WANT(MTAPI_ERR_ACTION_INVALID);
        mtapi_action_disable(wrong[i], MTAPI_INFINITE, &status);
        WANT(MTAPI_ERR_ACTION_INVALID);
        mtapi_action_enable(wrong[i], &status);
        WANT(MTAPI_ERR_ACTION_INVALID);
        mtapi_action_get_attribute(wrong[i], MTAPI_ACTION_AFFINITY, &got, sizeof got, &status);
        WANT(MTAPI_ERR_ACTION_INVALID);
    }
    end("actions");
}

/* A node whose worker is busy, with room for four tasks. */
static mtapi_job_hndl_t begin_busy(mtapi_task_hndl_t *busy)
{
    mtapi_status_t status;
    mtapi_node_attributes_t attributes = settings(1);
    attributes.max_tasks = 4;
    attributes.max_groups = 2;
    attributes.max_queues = 2;
    attributes.max_priorities = 2;
    mtapi_initialize(1, 1, &attributes, NULL, &status);
    OK;
    atomic_store(&gate, 0);
    mtapi_job_hndl_t job = job_of(1, at_gate);
    *busy = start(job, NULL, 0, NULL, 0);
    return job;
}

static mtapi_status_t start_with(mtapi_job_hndl_t job, const mtapi_task_attributes_t *attributes, mtapi_group_hndl_t group)
{
    mtapi_status_t status;
    mtapi_task_hndl_t task = mtapi_task_start(1, job, NULL, 0, NULL, 0, attributes, group, &status);
    CHECK((task.handle != 0) == (status == MTAPI_SUCCESS));
    return status;
}

static void tasks(void)
{
    mtapi_status_t status;
    mtapi_task_hndl_t busy;
    mtapi_job_hndl_t job = begin_busy(&busy), other = {2};
    mtapi_task_attributes_t loose = detached(), high, elsewhere;
    mtapi_group_hndl_t group = new_group();
    mtapi_taskattr_init(&high, NULL);
    mtapi_taskattr_set(&high, MTAPI_TASK_PRIORITY, AS_VALUE(2), NULL);
    mtapi_taskattr_init(&elsewhere, NULL);
    mtapi_taskattr_set(&elsewhere, MTAPI_TASK_AFFINITY, AS_VALUE(2), NULL);
    CHECK(start_with(job, &high, MTAPI_GROUP_NONE) == MTAPI_ERR_PARAMETER);
    CHECK(start_with(job, &loose, group) == MTAPI_ERR_PARAMETER);
    CHECK(start_with(other, NULL, MTAPI_GROUP_NONE) == MTAPI_ERR_JOB_INVALID);
    CHECK(start_with(FOREIGN(mtapi_job_hndl_t), NULL, MTAPI_GROUP_NONE) == MTAPI_ERR_JOB_INVALID);
    CHECK(start_with(job, NULL, FOREIGN(mtapi_group_hndl_t)) == MTAPI_ERR_GROUP_INVALID);
    CHECK(start_with(job, &elsewhere, MTAPI_GROUP_NONE) == MTAPI_ERR_NO_CORE);
    CHECK(mtapi_task_start(1, job, NULL, 8, NULL, 0, NULL, MTAPI_GROUP_NONE, &status).handle == 0);
    WANT(MTAPI_ERR_PARAMETER);
    CHECK(mtapi_task_start(1, job, NULL, 0, NULL, 1, NULL, MTAPI_GROUP_NONE, &status).handle == 0);
    WANT(MTAPI_ERR_PARAMETER);
    mtapi_action_hndl_t second = mtapi_action_create(2, at_gate, NULL, 0, NULL, &status);
    OK;
    mtapi_action_disable(second, MTAPI_INFINITE, &status);
    OK;
    CHECK(start_with(other, NULL, MTAPI_GROUP_NONE) == MTAPI_ERR_ACTION_DISABLED);
    mtapi_task_wait(busy, MTAPI_NOWAIT, &status);
    WANT(MTAPI_TIMEOUT);
    mtapi_task_hndl_t alone = mtapi_task_start(1, job, NULL, 0, NULL, 0, &loose, MTAPI_GROUP_NONE, &status);
    OK;
    mtapi_task_wait(alone, MTAPI_INFINITE, &status);
    WANT(MTAPI_ERR_PARAMETER);
    mtapi_task_hndl_t member = mtapi_task_start(1, job, NULL, 0, NULL, 0, NULL, group, &status);
    OK;
    mtapi_task_wait(member, MTAPI_INFINITE, &status);
    WANT(MTAPI_ERR_PARAMETER);
    CHECK(start_with(job, NULL, group) == MTAPI_SUCCESS);
    CHECK(start_with(job, NULL, MTAPI_GROUP_NONE) == MTAPI_ERR_TASK_LIMIT);
    mtapi_group_wait_all(group, MTAPI_NOWAIT, &status);
    WANT(MTAPI_TIMEOUT);
    mtapi_group_wait_any(group, NULL, MTAPI_NOWAIT, &status);
    WANT(MTAPI_TIMEOUT);
    atomic_store(&gate, 1);
    mtapi_task_wait(busy, MTAPI_INFINITE, &status);
    OK;
    mtapi_group_wait_any(group, NULL, MTAPI_INFINITE, &status);
    OK;
    mtapi_group_wait_all(group, MTAPI_INFINITE, &status);
    OK;
    mtapi_group_wait_any(group, NULL, MTAPI_INFINITE, &status);
    WANT(MTAPI_GROUP_COMPLETED);
    for (status = MTAPI_ERR_PARAMETER; status == MTAPI_ERR_PARAMETER; NAP(1)) mtapi_task_wait(alone, MTAPI_NOWAIT, &status);
    mtapi_task_hndl_t wrong[6] = {busy, alone, member, no_task, FOREIGN(mtapi_task_hndl_t), {group.handle}};
    for (int i = 0; i < 6; i++) {
        mtapi_uint_t value;
        mtapi_task_wait(wrong[i], MTAPI_INFINITE, &status);
        WANT(MTAPI_ERR_TASK_INVALID);
        mtapi_task_cancel(wrong[i], &status);
        WANT(MTAPI_ERR_TASK_INVALID);
        mtapi_task_get_attribute(wrong[i], MTAPI_TASK_PRIORITY, &value, sizeof value, &status);
        WANT(MTAPI_ERR_TASK_INVALID);
    }
    end("tasks");
}

static void task_attributes(void)
{
    mtapi_status_t status;
    mtapi_task_hndl_t busy, task[3];
    mtapi_job_hndl_t job = begin_busy(&busy);
    mtapi_task_attributes_t attributes;
    mtapi_affinity_t mask = 3, got = 0;
    mtapi_uint_t value = 0;
    mtapi_taskattr_init(&attributes, &status);
    OK;
    mtapi_taskattr_set(&attributes, MTAPI_TASK_PRIORITY, AS_VALUE(1), &status);
    OK;
    mtapi_taskattr_set(&attributes, MTAPI_TASK_AFFINITY, &mask, sizeof mask, &status);
    OK;
    mtapi_taskattr_set(&attributes, MTAPI_TASK_INSTANCES, AS_VALUE(1), &status);
    OK;
    mtapi_taskattr_set(&attributes, MTAPI_TASK_INSTANCES, AS_VALUE(2), &status);
    WANT(MTAPI_ERR_PARAMETER);
    mtapi_taskattr_set(&attributes, MTAPI_TASK_PRIORITY, AS_VALUE(8), &status);
    WANT(MTAPI_ERR_PARAMETER);
    mtapi_taskattr_set(&attributes, MTAPI_TASK_DETACHED, AS_VALUE(2), &status);
    WANT(MTAPI_ERR_PARAMETER);
    mtapi_taskattr_set(&attributes, MTAPI_TASK_AFFINITY, &value, sizeof value, &status);
    WANT(MTAPI_ERR_ATTR_SIZE);
    mtapi_taskattr_set(&attributes, MTAPI_TASK_USER_DATA, AS_VALUE(1), &status);
    WANT(MTAPI_ERR_FUNC_NOT_IMPLEMENTED);
    mtapi_taskattr_set(&attributes, MTAPI_TASK_COMPLETE_FUNCTION, AS_VALUE(1), &status);
    WANT(MTAPI_ERR_FUNC_NOT_IMPLEMENTED);
    mtapi_taskattr_set(&attributes, 5, AS_VALUE(1), &status);
    WANT(MTAPI_ERR_ATTR_NUM);
    mtapi_taskattr_set(NULL, MTAPI_TASK_PRIORITY, AS_VALUE(1), &status);
    WANT(MTAPI_ERR_PARAMETER);
    mtapi_taskattr_init(NULL, &status);
    WANT(MTAPI_ERR_PARAMETER);
    mtapi_queue_hndl_t queue = mtapi_queue_create(1, job, NULL, &status);
    OK;
    mtapi_group_hndl_t group = new_group();
    task[0] = mtapi_task_start(1, job, NULL, 0, NULL, 0, &attributes, MTAPI_GROUP_NONE, &status);
    OK;
    task[1] = mtapi_task_enqueue(1, queue, NULL, 0, NULL, 0, &attributes, group, &status);
    OK;
    attributes.is_detached = MTAPI_TRUE;
    task[2] = mtapi_task_start(1, job, NULL, 0, NULL, 0, &attributes, MTAPI_GROUP_NONE, &status);
    OK;
    for (int i = 0; i < 3; i++) {
        mtapi_task_get_attribute(task[i], MTAPI_TASK_AFFINITY, &got, sizeof got, &status);
        OK;
        CHECK(got == 3);
        mtapi_task_get_attribute(task[i], MTAPI_TASK_PRIORITY, &value, sizeof value, &status);
        OK;
        CHECK(value == (i == 1 ? 0 : 1)); /* one of a queue has the queue's */
        mtapi_task_get_attribute(task[i], MTAPI_TASK_DETACHED, &value, sizeof value, &status);
        OK;
        CHECK(value == (i == 2 ? MTAPI_TRUE : MTAPI_FALSE));
        mtapi_task_get_attribute(task[i], MTAPI_TASK_INSTANCES, &value, sizeof value, &status);
        OK;
        CHECK(value == 1);
        mtapi_task_get_attribute(task[i], MTAPI_TASK_USER_DATA, &value, sizeof value, &status);
        WANT(MTAPI_ERR_FUNC_NOT_IMPLEMENTED);
        mtapi_task_get_attribute(task[i], 5, &value, sizeof value, &status);
        WANT(MTAPI_ERR_ATTR_NUM);
        mtapi_task_get_attribute(task[i], MTAPI_TASK_PRIORITY, &value, 1, &status);
        WANT(MTAPI_ERR_ATTR_SIZE);
        mtapi_task_get_attribute(task[i], MTAPI_TASK_PRIORITY, NULL, sizeof value, &status);
        WANT(MTAPI_ERR_PARAMETER);
    }
    atomic_store(&gate, 1);
    end("task_attributes");
}

static void groups(void)
{
    mtapi_status_t status;
    mtapi_group_attributes_t attributes;
    mtapi_task_hndl_t busy;
    begin_busy(&busy);
    atomic_store(&gate, 1);
    mtapi_groupattr_init(&attributes, &status);
    OK;
    mtapi_groupattr_init(NULL, &status);
    WANT(MTAPI_ERR_PARAMETER);
    mtapi_groupattr_set(&attributes, 1, AS_VALUE(1), &status);
    WANT(MTAPI_ERR_FUNC_NOT_IMPLEMENTED);
    mtapi_group_hndl_t group = mtapi_group_create(5, &attributes, &status);
    OK;
    mtapi_group_set_attribute(group, 1, AS_VALUE(1), &status);
    WANT(MTAPI_ERR_FUNC_NOT_IMPLEMENTED);
    mtapi_group_get_attribute(group, 1, &attributes, 1, &status);
    WANT(MTAPI_ERR_FUNC_NOT_IMPLEMENTED);
    new_group();
    CHECK(mtapi_group_create(5, NULL, &status).handle == 0);
    WANT(MTAPI_ERR_GROUP_LIMIT);
    mtapi_group_wait_all(group, MTAPI_INFINITE, &status);
    OK;
    mtapi_group_delete(group, &status);
    OK;
    mtapi_group_hndl_t wrong[4] = {group, MTAPI_GROUP_NONE, FOREIGN(mtapi_group_hndl_t), {busy.handle}};
    for (int i = 0; i < 4; i++) {
        mtapi_group_wait_all(wrong[i], MTAPI_INFINITE, &status);
        WANT(MTAPI_ERR_GROUP_INVALID);
        mtapi_group_wait_any(wrong[i], NULL, MTAPI_INFINITE, &status);
        WANT(MTAPI_ERR_GROUP_INVALID);
        mtapi_group_delete(wrong[i], &status);
        WANT(MTAPI_ERR_GROUP_INVALID);
    }
    end("groups_calls");
}

static mtapi_status_t enqueue_with(mtapi_queue_hndl_t queue, const mtapi_task_attributes_t *attributes, mtapi_group_hndl_t group)
{
    mtapi_status_t status;
    mtapi_task_hndl_t task = mtapi_task_enqueue(1, queue, NULL, 0, NULL, 0, attributes, group, &status);
    CHECK((task.handle != 0) == (status == MTAPI_SUCCESS));
    return status;
}

static void queues(void)
{
    mtapi_status_t status;
    mtapi_task_hndl_t busy;
    mtapi_job_hndl_t job = begin_busy(&busy), other = {2};
    mtapi_task_attributes_t loose = detached(), elsewhere;
    mtapi_queue_attributes_t attributes;
    mtapi_group_hndl_t group = new_group();
    mtapi_taskattr_init(&elsewhere, NULL);
    mtapi_taskattr_set(&elsewhere, MTAPI_TASK_AFFINITY, AS_VALUE(2), NULL);
    mtapi_queueattr_init(&attributes, &status);
    OK;
    mtapi_queueattr_set(&attributes, MTAPI_QUEUE_PRIORITY, AS_VALUE(2), &status);
    OK;
    mtapi_queue_create(1, job, &attributes, &status);
    WANT(MTAPI_ERR_PARAMETER); /* the node has two priorities */
    attributes.priority = 0;
    attributes.limit = 0;
    mtapi_queue_create(1, job, &attributes, &status);
    WANT(MTAPI_ERR_PARAMETER);
    attributes.limit = 2;
    mtapi_queue_create(1, other, &attributes, &status);
    WANT(MTAPI_ERR_JOB_INVALID);
    mtapi_queue_create(1, FOREIGN(mtapi_job_hndl_t), &attributes, &status);
    WANT(MTAPI_ERR_JOB_INVALID);
    mtapi_queue_hndl_t queue = mtapi_queue_create(1, job, &attributes, &status);
    OK;
    CHECK(mtapi_queue_create(1, job, &attributes, &status).handle == 0);
    WANT(MTAPI_ERR_QUEUE_EXISTS);
    mtapi_action_hndl_t second = mtapi_action_create(2, at_gate, NULL, 0, NULL, &status);
    OK;
    mtapi_queue_hndl_t spare = mtapi_queue_create(MTAPI_QUEUE_ID_NONE, other, NULL, &status);
    OK;
    mtapi_queue_create(MTAPI_QUEUE_ID_NONE, job, &attributes, &status);
    WANT(MTAPI_ERR_QUEUE_LIMIT);
    CHECK(mtapi_queue_get(1, 1, &status).handle == queue.handle);
    OK;
    CHECK(mtapi_queue_get(3, 1, &status).handle == 0);
    WANT(MTAPI_ERR_QUEUE_INVALID);
    mtapi_queue_get(MTAPI_QUEUE_ID_NONE, 1, &status);
    WANT(MTAPI_ERR_QUEUE_INVALID);
    CHECK(mtapi_queue_get(1, 2, &status).handle == 0);
    WANT(MTAPI_ERR_DOMAIN_NOTSHARED);
    CHECK(enqueue_with(queue, &loose, group) == MTAPI_ERR_PARAMETER);
    CHECK(enqueue_with(queue, NULL, FOREIGN(mtapi_group_hndl_t)) == MTAPI_ERR_GROUP_INVALID);
    CHECK(enqueue_with(queue, &elsewhere, MTAPI_GROUP_NONE) == MTAPI_ERR_NO_CORE);
    CHECK(mtapi_task_enqueue(1, queue, NULL, 1, NULL, 0, NULL, MTAPI_GROUP_NONE, &status).handle == 0);
    WANT(MTAPI_ERR_PARAMETER);
    CHECK(mtapi_task_enqueue(1, queue, NULL, 0, NULL, 8, NULL, MTAPI_GROUP_NONE, &status).handle == 0);
    WANT(MTAPI_ERR_PARAMETER);
    mtapi_action_disable(second, MTAPI_NOWAIT, &status);
    OK;
    CHECK(enqueue_with(spare, NULL, MTAPI_GROUP_NONE) == MTAPI_ERR_ACTION_DISABLED);
    mtapi_action_delete(second, MTAPI_NOWAIT, &status);
    OK;
    CHECK(enqueue_with(spare, NULL, MTAPI_GROUP_NONE) == MTAPI_ERR_JOB_INVALID);
    CHECK(enqueue_with(queue, NULL, group) == MTAPI_SUCCESS);
    CHECK(enqueue_with(queue, NULL, group) == MTAPI_SUCCESS);
    CHECK(enqueue_with(queue, NULL, group) == MTAPI_ERR_QUEUE_LIMIT);
    mtapi_queue_disable(queue, MTAPI_INFINITE, &status);
    OK;
    CHECK(enqueue_with(queue, NULL, group) == MTAPI_ERR_QUEUE_DISABLED);
    mtapi_queue_enable(queue, &status);
    OK;
    CHECK(enqueue_with(queue, NULL, group) == MTAPI_SUCCESS); /* of four tasks two ended cancelled, and stay in the group */
    CHECK(enqueue_with(queue, NULL, group) == MTAPI_ERR_TASK_LIMIT);
    mtapi_queue_delete(queue, -3, &status);
    WANT(MTAPI_ERR_PARAMETER);
    mtapi_queue_disable(queue, -2, &status);
    WANT(MTAPI_ERR_PARAMETER);
    mtapi_queue_delete(queue, MTAPI_INFINITE, &status);
    OK;
    mtapi_queue_hndl_t wrong[3] = {queue, FOREIGN(mtapi_queue_hndl_t), {group.handle}};
    for (int i = 0; i < 3; i++) {
        mtapi_uint_t value;
        CHECK(enqueue_with(wrong[i], NULL, MTAPI_GROUP_NONE) == MTAPI_ERR_QUEUE_INVALID);
        mtapi_queue_enable(wrong[i], &status);
        WANT(MTAPI_ERR_QUEUE_INVALID);
        mtapi_queue_disable(wrong[i], MTAPI_INFINITE, &status);
        WANT(MTAPI_ERR_QUEUE_INVALID);
        mtapi_queue_delete(wrong[i], MTAPI_INFINITE, &status);
        WANT(MTAPI_ERR_QUEUE_INVALID);
        mtapi_queue_get_attribute(wrong[i], MTAPI_QUEUE_LIMIT, &value, sizeof value, &status);
        WANT(MTAPI_ERR_QUEUE_INVALID);
    }
    atomic_store(&gate, 1);
    end("queues");
}

static void queue_attributes(void)
{
    static const struct { mtapi_uint_t number, least, most, otherwise; } fields[4] = {{MTAPI_QUEUE_PRIORITY, 0, 7, 0},
        {MTAPI_QUEUE_LIMIT, 1, 65536, 65536}, {MTAPI_QUEUE_ORDERED, 0, 1, 1}, {MTAPI_QUEUE_RETAIN, 0, 1, 0}};
    mtapi_status_t status;
    mtapi_queue_attributes_t attributes;
    mtapi_uint_t value;
    begin(1);
    mtapi_queue_hndl_t plain = mtapi_queue_create(1, job_of(1, at_gate), NULL, &status);
    OK;
    mtapi_queueattr_init(&attributes, &status);
    OK;
    for (int i = 0; i < 4; i++) {
        mtapi_queue_get_attribute(plain, fields[i].number, &value, sizeof value, &status);
        OK;
        CHECK(value == fields[i].otherwise);
        mtapi_queueattr_set(&attributes, fields[i].number, AS_VALUE(fields[i].most + 1), &status);
        WANT(MTAPI_ERR_PARAMETER);
        mtapi_queueattr_set(&attributes, fields[i].number, AS_VALUE(fields[i].least), &status);
        OK;
    }
    mtapi_queueattr_set(&attributes, MTAPI_QUEUE_LIMIT, AS_VALUE(0), &status);
    WANT(MTAPI_ERR_PARAMETER);
    mtapi_queueattr_set(&attributes, MTAPI_QUEUE_LIMIT, &value, 1, &status);
    WANT(MTAPI_ERR_ATTR_SIZE);
    mtapi_queueattr_set(&attributes, MTAPI_QUEUE_GLOBAL, AS_VALUE(1), &status);
    WANT(MTAPI_ERR_ATTR_READONLY);
    mtapi_queueattr_set(&attributes, MTAPI_QUEUE_DOMAIN_SHARED, AS_VALUE(1), &status);
    WANT(MTAPI_ERR_ATTR_READONLY);
    mtapi_queueattr_set(&attributes, 7, AS_VALUE(1), &status);
    WANT(MTAPI_ERR_ATTR_NUM);
    mtapi_queueattr_set(NULL, MTAPI_QUEUE_LIMIT, AS_VALUE(1), &status);
    WANT(MTAPI_ERR_PARAMETER);
    mtapi_queueattr_init(NULL, &status);
    WANT(MTAPI_ERR_PARAMETER);
    mtapi_queue_hndl_t queue = mtapi_queue_create(2, (mtapi_job_hndl_t){1}, &attributes, &status);
    OK;
    for (int i = 0; i < 4; i++) {
        mtapi_queue_get_attribute(queue, fields[i].number, &value, sizeof value, &status);
        OK;
        CHECK(value == fields[i].least);
    }
    mtapi_queue_get_attribute(queue, MTAPI_QUEUE_GLOBAL, &value, sizeof value, &status);
    OK;
    CHECK(value == MTAPI_FALSE);
    mtapi_queue_get_attribute(queue, 7, &value, sizeof value, &status);
    WANT(MTAPI_ERR_ATTR_NUM);
    mtapi_queue_get_attribute(queue, MTAPI_QUEUE_LIMIT, &value, 1, &status);
    WANT(MTAPI_ERR_ATTR_SIZE);
    mtapi_queue_get_attribute(queue, MTAPI_QUEUE_LIMIT, NULL, sizeof value, &status);
    WANT(MTAPI_ERR_PARAMETER);
    mtapi_queue_set_attribute(queue, MTAPI_QUEUE_LIMIT, AS_VALUE(1), &status);
    WANT(MTAPI_ERR_FUNC_NOT_IMPLEMENTED);
    end("queue_attributes");
}

static void masks(void)
{
    mtapi_status_t status;
    mtapi_affinity_t mask;
    mtapi_affinity_init(&mask, MTAPI_TRUE, &status);
    OK;
    CHECK(mask == ~(mtapi_affinity_t)0);
    mtapi_affinity_set(&mask, 63, MTAPI_FALSE, &status);
    OK;
    CHECK(mask == ~(mtapi_affinity_t)0 >> 1);
    CHECK(mtapi_affinity_get(&mask, 62, &status) == MTAPI_TRUE);
    OK;
    CHECK(mtapi_affinity_get(&mask, 63, &status) == MTAPI_FALSE);
    OK;
    mtapi_affinity_init(&mask, MTAPI_FALSE, &status);
    OK;
    mtapi_affinity_set(&mask, 4, 7, &status);
    OK;
    CHECK(mask == 16);
    mtapi_affinity_set(&mask, 64, MTAPI_TRUE, &status);
    WANT(MTAPI_ERR_CORE_NUM);
    mtapi_affinity_get(&mask, 64, &status);
    WANT(MTAPI_ERR_CORE_NUM);
    mtapi_affinity_init(NULL, MTAPI_TRUE, &status);
    WANT(MTAPI_ERR_PARAMETER);
    mtapi_affinity_set(NULL, 1, MTAPI_TRUE, &status);
    WANT(MTAPI_ERR_PARAMETER);
    mtapi_affinity_get(NULL, 1, &status);
    WANT(MTAPI_ERR_PARAMETER);
    CHECK(strcmp(mtapi_ext_status_name(MTAPI_ERR_NO_CORE), "MTAPI_ERR_NO_CORE") == 0);
    CHECK(strcmp(mtapi_ext_status_name(15), "?") == 0);
    switch (MTAPI_ERR_ACTION_CANCELLED) { /* each name of the standard has a number of its own */
    case MTAPI_ERR_TASK_CANCELLED:
    case MTAPI_ERR_ACTION_NUM_INVALID:
    case MTAPI_ERR_BUFFER_SIZE:
    case MTAPI_ERR_ARG_NOT_IMPLEMENTED: CHECK(false); break;
    case MTAPI_ERR_ACTION_CANCELLED: break;
    }
    CHECK(strcmp(mtapi_ext_status_name(MTAPI_ERR_ACTION_CANCELLED), "MTAPI_ERR_ACTION_CANCELLED") == 0);
}

int main(void)
{
    without_a_node();
    nodes();
    node_attributes();
    actions();
    tasks();
    task_attributes();
    groups();
    queues();
    queue_attributes();
    masks();
    without_a_node();
    return 0;
}
