/* Attributes: their defaults, their ranges, and how values are read and written. */
#include "glue.h"
#include <stddef.h>
#include <string.h>
#include <unistd.h>

const mtapi_action_attributes_t glue_default_action = {~(mtapi_affinity_t)0};
const mtapi_task_attributes_t glue_default_task = {MTAPI_FALSE, 0, ~(mtapi_affinity_t)0};
const mtapi_queue_attributes_t glue_default_queue = {0, 65536, MTAPI_TRUE, MTAPI_FALSE};

void glue_default_node(mtapi_node_attributes_t *attributes)
{
    long processors = sysconf(_SC_NPROCESSORS_ONLN);
    uint32_t workers = processors < 1 ? 1 : processors > MOST_WORKERS ? MOST_WORKERS : (uint32_t)processors;
    *attributes = (mtapi_node_attributes_t){workers, 1024, 64, 128, 16, 16, 4, UINT32_MAX, MTAPI_FALSE};
}

/* ---- values, by address or in place of it */

static uint32_t read_bytes(const void *attribute, mtapi_size_t size, void *value, size_t wanted)
{
    if (size != wanted) return MTAPI_ERR_ATTR_SIZE;
    if (!attribute) return MTAPI_ERR_PARAMETER;
    memcpy(value, attribute, wanted);
    return 0;
}

uint32_t glue_read_value(const void *attribute, mtapi_size_t size, uint32_t *value)
{
    if (size != MTAPI_ATTRIBUTE_POINTER_AS_VALUE) return read_bytes(attribute, size, value, sizeof *value);
    if ((uintptr_t)attribute > UINT32_MAX) return MTAPI_ERR_PARAMETER;
    *value = (uint32_t)(uintptr_t)attribute;
    return 0;
}

uint32_t glue_read_mask(const void *attribute, mtapi_size_t size, mtapi_affinity_t *value)
{
    if (size != MTAPI_ATTRIBUTE_POINTER_AS_VALUE) return read_bytes(attribute, size, value, sizeof *value);
    *value = (uintptr_t)attribute;
    return 0;
}

static uint32_t write_bytes(void *attribute, mtapi_size_t size, const void *value, size_t wanted)
{
    if (!attribute) return MTAPI_ERR_PARAMETER;
    if (size != wanted) return MTAPI_ERR_ATTR_SIZE;
    memcpy(attribute, value, wanted);
    return 0;
}

uint32_t glue_write_value(void *attribute, mtapi_size_t size, uint32_t value)
{
    return write_bytes(attribute, size, &value, sizeof value);
}

uint32_t glue_write_mask(void *attribute, mtapi_size_t size, mtapi_affinity_t value)
{
    return write_bytes(attribute, size, &value, sizeof value);
}

/* ---- fields of 32 bits, each with its number and its range */

struct field {
    uint32_t number, least, most;
    size_t place;
};

#define NODE(number, least, most, field) {number, least, most, offsetof(mtapi_node_attributes_t, field)}
static const struct field node_fields[] = {
    NODE(MTAPI_NODE_NUMCORES, 1, MOST_WORKERS, num_cores),
    NODE(MTAPI_NODE_MAX_TASKS, 1, 65536, max_tasks),
    NODE(MTAPI_NODE_MAX_ACTIONS, 1, MOST_ACTIONS, max_actions),
    NODE(MTAPI_NODE_MAX_GROUPS, 1, MOST_GROUPS, max_groups),
    NODE(MTAPI_NODE_MAX_QUEUES, 1, MOST_QUEUES, max_queues),
    NODE(MTAPI_EXT_NODE_MAX_OBJECTS, 1, MOST_OBJECTS, max_objects),
    NODE(MTAPI_NODE_MAX_PRIORITIES, 1, 8, max_priorities),
    NODE(MTAPI_EXT_NODE_GENERATIONS, 1, UINT32_MAX, generations),
    NODE(MTAPI_EXT_NODE_JOURNAL, 0, 1, journal),
    {0, 0, 0, 0},
};

#define TASK(number, least, most, field) {number, least, most, offsetof(mtapi_task_attributes_t, field)}
static const struct field task_fields[] = {
    TASK(MTAPI_TASK_DETACHED, 0, 1, is_detached),
    TASK(MTAPI_TASK_PRIORITY, 0, 7, priority),
    {0, 0, 0, 0},
};

#define QUEUE(number, least, most, field) {number, least, most, offsetof(mtapi_queue_attributes_t, field)}
static const struct field queue_fields[] = {
    QUEUE(MTAPI_QUEUE_PRIORITY, 0, 7, priority),
    QUEUE(MTAPI_QUEUE_LIMIT, 1, 65536, limit),
    QUEUE(MTAPI_QUEUE_ORDERED, 0, 1, ordered),
    QUEUE(MTAPI_QUEUE_RETAIN, 0, 1, retain),
    {0, 0, 0, 0},
};

static const struct field *find(const struct field *fields, uint32_t number)
{
    for (; fields->number; fields++)
        if (fields->number == number) return fields;
    return NULL;
}

static uint32_t set_field(const struct field *field, void *attributes, const void *attribute, mtapi_size_t size)
{
    uint32_t value, code = glue_read_value(attribute, size, &value);
    if (code != 0) return code;
    if (value < field->least || value > field->most) return MTAPI_ERR_PARAMETER;
    memcpy((char *)attributes + field->place, &value, sizeof value);
    return 0;
}

static uint32_t get_field(const struct field *field, const void *attributes, void *attribute, mtapi_size_t size)
{
    uint32_t value;
    memcpy(&value, (const char *)attributes + field->place, sizeof value);
    return glue_write_value(attribute, size, value);
}

/* ---- nodes */

void mtapi_nodeattr_init(mtapi_node_attributes_t *attributes, mtapi_status_t *status)
{
    if (attributes) glue_default_node(attributes);
    glue_say(status, attributes ? MTAPI_SUCCESS : MTAPI_ERR_PARAMETER);
}

/* What an attribute of a node that isn't there answers. */
static uint32_t no_node_field(uint32_t number)
{
    bool left_out = number >= MTAPI_NODE_CORE_AFFINITY && number <= MTAPI_NODE_MAX_ACTIONS_PER_JOB;
    return left_out ? MTAPI_ERR_FUNC_NOT_IMPLEMENTED : MTAPI_ERR_ATTR_NUM;
}

void mtapi_nodeattr_set(mtapi_node_attributes_t *attributes, mtapi_uint_t attribute_num, const void *attribute,
    mtapi_size_t attribute_size, mtapi_status_t *status)
{
    const struct field *field = find(node_fields, attribute_num);
    uint32_t code = !attributes ? MTAPI_ERR_PARAMETER
        : field ? set_field(field, attributes, attribute, attribute_size)
                : no_node_field(attribute_num);
    glue_say(status, code);
}

void mtapi_node_get_attribute(mtapi_node_t node, mtapi_uint_t attribute_num, void *attribute, mtapi_size_t attribute_size,
    mtapi_status_t *status)
{
    (void)node;
    const struct field *field = find(node_fields, attribute_num);
    uint32_t who, code = glue_begin(&who);
    if (code == 0)
        code = field ? get_field(field, &glue.attributes, attribute, attribute_size) : no_node_field(attribute_num);
    glue_end(code, status);
}

/* ---- actions */

void mtapi_actionattr_init(mtapi_action_attributes_t *attributes, mtapi_status_t *status)
{
    if (attributes) *attributes = glue_default_action;
    glue_say(status, attributes ? MTAPI_SUCCESS : MTAPI_ERR_PARAMETER);
}

static uint32_t no_action_field(uint32_t number)
{
    return number == MTAPI_ACTION_GLOBAL || number == MTAPI_ACTION_DOMAIN_SHARED ? MTAPI_ERR_ATTR_READONLY : MTAPI_ERR_ATTR_NUM;
}

void mtapi_actionattr_set(mtapi_action_attributes_t *attributes, mtapi_uint_t attribute_num, const void *attribute,
    mtapi_size_t attribute_size, mtapi_status_t *status)
{
    uint32_t code = !attributes ? MTAPI_ERR_PARAMETER
        : attribute_num == MTAPI_ACTION_AFFINITY ? glue_read_mask(attribute, attribute_size, &attributes->affinity)
                                                 : no_action_field(attribute_num);
    glue_say(status, code);
}

static uint32_t get_of_action(uint64_t action, uint32_t number, void *attribute, mtapi_size_t size)
{
    const struct action_record *record = &glue.actions[SLOT(action) % MOST_ACTIONS];
    if (action == 0 || record->handle != action) return MTAPI_ERR_ACTION_INVALID;
    if (number == MTAPI_ACTION_AFFINITY) return glue_write_mask(attribute, size, record->affinity);
    if (no_action_field(number) == MTAPI_ERR_ATTR_READONLY) return glue_write_value(attribute, size, MTAPI_FALSE);
    return MTAPI_ERR_ATTR_NUM;
}

void mtapi_action_get_attribute(mtapi_action_hndl_t action, mtapi_uint_t attribute_num, void *attribute,
    mtapi_size_t attribute_size, mtapi_status_t *status)
{
    uint32_t who, code = glue_begin(&who);
    if (code == 0) code = get_of_action(action.handle, attribute_num, attribute, attribute_size);
    glue_end(code, status);
}

/* ---- tasks */

void mtapi_taskattr_init(mtapi_task_attributes_t *attributes, mtapi_status_t *status)
{
    if (attributes) *attributes = glue_default_task;
    glue_say(status, attributes ? MTAPI_SUCCESS : MTAPI_ERR_PARAMETER);
}

/* One instance and no other number of them. */
static uint32_t set_instances(const void *attribute, mtapi_size_t size)
{
    uint32_t value, code = glue_read_value(attribute, size, &value);
    return code ? code : value == 1 ? 0 : MTAPI_ERR_PARAMETER;
}

static uint32_t no_task_field(uint32_t number)
{
    bool left_out = number == MTAPI_TASK_USER_DATA || number == MTAPI_TASK_COMPLETE_FUNCTION;
    return left_out ? MTAPI_ERR_FUNC_NOT_IMPLEMENTED : MTAPI_ERR_ATTR_NUM;
}

static uint32_t set_of_task(mtapi_task_attributes_t *attributes, uint32_t number, const void *attribute, mtapi_size_t size)
{
    const struct field *field = find(task_fields, number);
    if (!attributes) return MTAPI_ERR_PARAMETER;
    if (field) return set_field(field, attributes, attribute, size);
    if (number == MTAPI_TASK_AFFINITY) return glue_read_mask(attribute, size, &attributes->affinity);
    return number == MTAPI_TASK_INSTANCES ? set_instances(attribute, size) : no_task_field(number);
}

void mtapi_taskattr_set(mtapi_task_attributes_t *attributes, mtapi_uint_t attribute_num, const void *attribute,
    mtapi_size_t attribute_size, mtapi_status_t *status)
{
    glue_say(status, set_of_task(attributes, attribute_num, attribute, attribute_size));
}

/* Whether a task is there: one that is neither detached nor in a group is, until it was waited for. Of any other the node is
 * asked by a look, which is refused, and in two ways. */
static uint32_t check_task(uint32_t who, uint64_t task)
{
    int64_t numbers[NUMBERS];
    size_t count;
    const struct task_record *record = &glue.tasks[SLOT(task) % glue.attributes.max_tasks];
    if (task == 0 || record->handle != task) return MTAPI_ERR_TASK_INVALID;
    if (!record->attributes.is_detached && record->group == 0) return 0;
    uint32_t code = mtapi_c_task_look(&glue.node, who, task, true, numbers, NUMBERS, &count);
    return code == MTAPI_ERR_PARAMETER ? 0 : code;
}

static uint32_t get_of_task(uint32_t who, uint64_t task, uint32_t number, void *attribute, mtapi_size_t size)
{
    const struct field *field = find(task_fields, number);
    uint32_t code = check_task(who, task);
    if (code != 0) return code;
    const mtapi_task_attributes_t *attributes = &glue.tasks[SLOT(task)].attributes;
    if (field) return get_field(field, attributes, attribute, size);
    if (number == MTAPI_TASK_AFFINITY) return glue_write_mask(attribute, size, attributes->affinity);
    return number == MTAPI_TASK_INSTANCES ? glue_write_value(attribute, size, 1) : no_task_field(number);
}

void mtapi_task_get_attribute(mtapi_task_hndl_t task, mtapi_uint_t attribute_num, void *attribute, mtapi_size_t attribute_size,
    mtapi_status_t *status)
{
    uint32_t who, code = glue_begin(&who);
    if (code == 0) code = get_of_task(who, task.handle, attribute_num, attribute, attribute_size);
    glue_end(code, status);
}

/* ---- queues */

void mtapi_queueattr_init(mtapi_queue_attributes_t *attributes, mtapi_status_t *status)
{
    if (attributes) *attributes = glue_default_queue;
    glue_say(status, attributes ? MTAPI_SUCCESS : MTAPI_ERR_PARAMETER);
}

static uint32_t no_queue_field(uint32_t number)
{
    return number == MTAPI_QUEUE_GLOBAL || number == MTAPI_QUEUE_DOMAIN_SHARED ? MTAPI_ERR_ATTR_READONLY : MTAPI_ERR_ATTR_NUM;
}

void mtapi_queueattr_set(mtapi_queue_attributes_t *attributes, mtapi_uint_t attribute_num, const void *attribute,
    mtapi_size_t attribute_size, mtapi_status_t *status)
{
    const struct field *field = find(queue_fields, attribute_num);
    uint32_t code = !attributes ? MTAPI_ERR_PARAMETER
        : field ? set_field(field, attributes, attribute, attribute_size)
                : no_queue_field(attribute_num);
    glue_say(status, code);
}

static uint32_t get_of_queue(uint64_t queue, uint32_t number, void *attribute, mtapi_size_t size)
{
    const struct field *field = find(queue_fields, number);
    const struct queue_record *record = &glue.queues[SLOT(queue) % MOST_QUEUES];
    if (queue == 0 || record->handle != queue) return MTAPI_ERR_QUEUE_INVALID;
    if (field) return get_field(field, &record->attributes, attribute, size);
    if (no_queue_field(number) == MTAPI_ERR_ATTR_READONLY) return glue_write_value(attribute, size, MTAPI_FALSE);
    return MTAPI_ERR_ATTR_NUM;
}

void mtapi_queue_get_attribute(mtapi_queue_hndl_t queue, mtapi_uint_t attribute_num, void *attribute,
    mtapi_size_t attribute_size, mtapi_status_t *status)
{
    uint32_t who, code = glue_begin(&who);
    if (code == 0) code = get_of_queue(queue.handle, attribute_num, attribute, attribute_size);
    glue_end(code, status);
}
