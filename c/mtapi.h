/* MTAPI 1.0, as this library has it: a proved node, and unproved glue of threads around it.
 *
 * What a caller owes, since nothing checks it:
 * - a pointer that isn't MTAPI_NULL leads to what its type says, and to as many bytes as its size says; `status`,
 *   attributes and results may be MTAPI_NULL;
 * - arguments, results and node-local data live until the task has ended and was waited for, or the node is finalized;
 * - an action returns, and neither ends its thread nor leaves by longjmp or an exception; no thread is cancelled in a call;
 * - no call is made by a signal handler, or by a child of fork in which the parent's node stands.
 * Any thread may call. A handle that was forged or freed, or that is of another kind, is refused with its status.
 *
 * docs/c.md has a table of what differs from the standard. Names that begin with mtapi_ext_ are this library's own. */
#ifndef MTAPI_H
#define MTAPI_H

#include <stddef.h>
#include <stdint.h>
#include <stdio.h>

#ifdef __cplusplus
extern "C" {
#endif

#define MTAPI_IN const
#define MTAPI_OUT
#define MTAPI_INOUT
#define MTAPI_NULL NULL
#define MTAPI_FALSE 0
#define MTAPI_TRUE 1

typedef int32_t mtapi_int_t;
typedef uint32_t mtapi_uint_t;
typedef int8_t mtapi_int8_t;
typedef int16_t mtapi_int16_t;
typedef int32_t mtapi_int32_t;
typedef int64_t mtapi_int64_t;
typedef uint8_t mtapi_uint8_t;
typedef uint16_t mtapi_uint16_t;
typedef uint32_t mtapi_uint32_t;
typedef uint64_t mtapi_uint64_t;
typedef size_t mtapi_size_t;
typedef uint32_t mtapi_boolean_t;
typedef uint32_t mtapi_status_t;
typedef uint32_t mtapi_domain_t;
typedef uint32_t mtapi_node_t;
typedef uint32_t mtapi_job_id_t;
typedef uint32_t mtapi_task_id_t;
typedef uint32_t mtapi_group_id_t;
typedef uint32_t mtapi_queue_id_t;
typedef uint32_t mtapi_task_state_t;
typedef uint32_t mtapi_notification_t;
typedef uint64_t mtapi_affinity_t; /* a bit for each core, which is the number of a worker */

/* Milliseconds. */
typedef int32_t mtapi_timeout_t;
#define MTAPI_NOWAIT 0
#define MTAPI_INFINITE (-1)

typedef struct { uint64_t handle; } mtapi_job_hndl_t;
typedef struct { uint64_t handle; } mtapi_action_hndl_t;
typedef struct { uint64_t handle; } mtapi_task_hndl_t;
typedef struct { uint64_t handle; } mtapi_group_hndl_t;
typedef struct { uint64_t handle; } mtapi_queue_hndl_t;

extern const mtapi_group_hndl_t MTAPI_GROUP_NONE;

#define MTAPI_DOMAIN_ID_INVALID 0
#define MTAPI_NODE_ID_INVALID 0
#define MTAPI_JOB_ID_INVALID 0
#define MTAPI_JOB_ID_NONE 0
#define MTAPI_TASK_ID_NONE 0
#define MTAPI_GROUP_ID_NONE 0
#define MTAPI_QUEUE_ID_NONE 0

/* ---- statuses: those of the node, by its numbers */
enum {
    MTAPI_SUCCESS = 0,
    MTAPI_TIMEOUT = 1,
    MTAPI_GROUP_COMPLETED = 2,
    MTAPI_ERR_PARAMETER = 3,
    MTAPI_ERR_NODE_INITIALIZED = 4,
    MTAPI_ERR_NODE_NOTINIT = 5,
    MTAPI_ERR_ACTION_INVALID = 6,
    MTAPI_ERR_ACTION_LIMIT = 7,
    MTAPI_ERR_ACTION_FAILED = 8,
    MTAPI_ERR_ACTION_DELETED = 9,
    MTAPI_ERR_ACTION_DISABLED = 10,
    MTAPI_ERR_ARG_SIZE = 11,
    MTAPI_ERR_JOB_INVALID = 12,
    MTAPI_ERR_NO_CORE = 13,
    MTAPI_ERR_TASK_INVALID = 14,
    MTAPI_ERR_TASK_LIMIT = 16,
    MTAPI_ERR_TASK_CANCELLED = 17,
    MTAPI_ERR_GROUP_INVALID = 18,
    MTAPI_ERR_GROUP_LIMIT = 19,
    MTAPI_ERR_QUEUE_INVALID = 20,
    MTAPI_ERR_QUEUE_LIMIT = 21,
    MTAPI_ERR_QUEUE_DELETED = 22,
    MTAPI_ERR_QUEUE_DISABLED = 23,
    MTAPI_ERR_QUEUE_EXISTS = 24,
    MTAPI_ERR_WAIT_PENDING = 25,
    MTAPI_ERR_ATTR_NUM = 26,
    MTAPI_ERR_ATTR_READONLY = 27,
    MTAPI_ERR_CORE_NUM = 28,
    MTAPI_ERR_SPENT = 29,

    /* those of the glue */
    MTAPI_ERR_FUNC_NOT_IMPLEMENTED = 64, /* the profile leaves this out */
    MTAPI_ERR_NODE_INITFAILED = 65,      /* a thread was refused */
    MTAPI_ERR_ATTR_SIZE = 66,
    MTAPI_ERR_CONTEXT_INVALID = 67,      /* no context */
    MTAPI_ERR_CONTEXT_OUTOFCONTEXT = 68, /* not the context of the action that this thread runs */
    MTAPI_ERR_DOMAIN_NOTSHARED = 85,     /* not the domain of the node */
    MTAPI_EXT_ERR_MEMORY = 99,           /* out of memory */
    MTAPI_EXT_ERR_CALLER_LIMIT = 104,    /* main and eight further threads have called, and none of them has ended */
    MTAPI_EXT_ERR_DEADLOCK = 105,        /* a wait without end: every worker waits in an action, or nothing can happen any more */
    MTAPI_EXT_ERR_JOURNAL = 106,         /* the node keeps no journal, or it couldn't be written */

    /* those of the standard that nothing here answers by itself; an action may set them */
    MTAPI_ERR_RESULT_SIZE = 80,
    MTAPI_ERR_UNKNOWN = 81,
    MTAPI_ERR_ACTION_EXISTS = 82,
    MTAPI_ERR_NODE_INVALID = 83,
    MTAPI_ERR_DOMAIN_INVALID = 84,
    MTAPI_ERR_NODE_FINALFAILED = 86,
    MTAPI_ERR_ACTION_CANCELLED = 87,
    MTAPI_ERR_ACTION_NUM_INVALID = 88,
    MTAPI_ERR_BUFFER_SIZE = 89,
    MTAPI_ERR_ARG_NOT_IMPLEMENTED = 90
};

/* The name of a status, or "?". */
const char *mtapi_ext_status_name(mtapi_status_t status);

/* ---- attributes. A value is given by its address and size; or, with the size MTAPI_ATTRIBUTE_POINTER_AS_VALUE, in place
 * of the address by MTAPI_ATTRIBUTE_VALUE. */
#define MTAPI_ATTRIBUTE_POINTER_AS_VALUE ((mtapi_size_t)0)
#define MTAPI_ATTRIBUTE_VALUE(value) ((void *)(uintptr_t)(value))

/* Of a node, each a mtapi_uint_t. Those from 32 on are left out. */
enum {
    MTAPI_NODE_NUMCORES = 1,      /* workers, 1 to 16 (as many as there are processors) */
    MTAPI_NODE_MAX_TASKS = 2,     /* 1 to 65,536 (1,024) */
    MTAPI_NODE_MAX_ACTIONS = 3,   /* 1 to 1,024 (64) */
    MTAPI_NODE_MAX_GROUPS = 4,    /* 1 to 1,024 (128) */
    MTAPI_NODE_MAX_QUEUES = 5,    /* 1 to 256 (16) */
    MTAPI_EXT_NODE_MAX_OBJECTS = 6, /* of each kind of MRAPI, 1 to 256 (16) */
    MTAPI_NODE_MAX_PRIORITIES = 7,  /* 1 to 8 (4) */
    MTAPI_EXT_NODE_GENERATIONS = 8, /* how often a slot may be used, 1 to 4,294,967,295 (4,294,967,295) */
    MTAPI_EXT_NODE_JOURNAL = 9,     /* whether each call is kept, for mtapi_ext_finalize (MTAPI_FALSE) */
    MTAPI_NODE_CORE_AFFINITY = 32,
    MTAPI_NODE_TYPE = 33,
    MTAPI_NODE_QUEUE_LIMIT = 34,
    MTAPI_NODE_MAX_JOBS = 35,
    MTAPI_NODE_MAX_ACTIONS_PER_JOB = 36
};

/* What MTAPI_NODE_TYPE has in the standard. */
#define MTAPI_NODE_TYPE_SMP 1
#define MTAPI_NODE_TYPE_DSP 2

/* Of an action. */
enum {
    MTAPI_ACTION_GLOBAL = 1,       /* read-only: MTAPI_FALSE */
    MTAPI_ACTION_AFFINITY = 2,     /* mtapi_affinity_t (every core) */
    MTAPI_ACTION_DOMAIN_SHARED = 3 /* read-only: MTAPI_FALSE */
};

/* Of a task, each a mtapi_uint_t but the affinity. */
enum {
    MTAPI_TASK_DETACHED = 1,  /* (MTAPI_FALSE) */
    MTAPI_TASK_INSTANCES = 2, /* 1 alone (1) */
    MTAPI_TASK_PRIORITY = 3,  /* 0, which goes first, to 7; below the node's priorities (0) */
    MTAPI_TASK_AFFINITY = 4,  /* mtapi_affinity_t (every core) */
    MTAPI_TASK_USER_DATA = 32,
    MTAPI_TASK_COMPLETE_FUNCTION = 33
};

/* Of a queue, each a mtapi_uint_t. */
enum {
    MTAPI_QUEUE_GLOBAL = 1,       /* read-only: MTAPI_FALSE */
    MTAPI_QUEUE_PRIORITY = 2,     /* of its tasks, 0 to 7 (0) */
    MTAPI_QUEUE_LIMIT = 3,        /* tasks that haven't ended, 1 to 65,536 (65,536) */
    MTAPI_QUEUE_ORDERED = 4,      /* (MTAPI_TRUE, as in the standard) */
    MTAPI_QUEUE_RETAIN = 5,       /* (MTAPI_FALSE) */
    MTAPI_QUEUE_DOMAIN_SHARED = 6 /* read-only: MTAPI_FALSE */
};

#define MTAPI_NODE_NUMCORES_SIZE sizeof(mtapi_uint_t)
#define MTAPI_NODE_MAX_TASKS_SIZE sizeof(mtapi_uint_t)
#define MTAPI_NODE_MAX_ACTIONS_SIZE sizeof(mtapi_uint_t)
#define MTAPI_NODE_MAX_GROUPS_SIZE sizeof(mtapi_uint_t)
#define MTAPI_NODE_MAX_QUEUES_SIZE sizeof(mtapi_uint_t)
#define MTAPI_NODE_MAX_PRIORITIES_SIZE sizeof(mtapi_uint_t)
#define MTAPI_NODE_CORE_AFFINITY_SIZE sizeof(mtapi_affinity_t)
#define MTAPI_NODE_TYPE_SIZE sizeof(mtapi_uint_t)
#define MTAPI_NODE_QUEUE_LIMIT_SIZE sizeof(mtapi_uint_t)
#define MTAPI_NODE_MAX_JOBS_SIZE sizeof(mtapi_uint_t)
#define MTAPI_NODE_MAX_ACTIONS_PER_JOB_SIZE sizeof(mtapi_uint_t)
#define MTAPI_ACTION_GLOBAL_SIZE sizeof(mtapi_boolean_t)
#define MTAPI_ACTION_AFFINITY_SIZE sizeof(mtapi_affinity_t)
#define MTAPI_ACTION_DOMAIN_SHARED_SIZE sizeof(mtapi_boolean_t)
#define MTAPI_TASK_DETACHED_SIZE sizeof(mtapi_boolean_t)
#define MTAPI_TASK_INSTANCES_SIZE sizeof(mtapi_uint_t)
#define MTAPI_TASK_PRIORITY_SIZE sizeof(mtapi_uint_t)
#define MTAPI_TASK_AFFINITY_SIZE sizeof(mtapi_affinity_t)
#define MTAPI_QUEUE_GLOBAL_SIZE sizeof(mtapi_boolean_t)
#define MTAPI_QUEUE_PRIORITY_SIZE sizeof(mtapi_uint_t)
#define MTAPI_QUEUE_LIMIT_SIZE sizeof(mtapi_uint_t)
#define MTAPI_QUEUE_ORDERED_SIZE sizeof(mtapi_boolean_t)
#define MTAPI_QUEUE_RETAIN_SIZE sizeof(mtapi_boolean_t)
#define MTAPI_QUEUE_DOMAIN_SHARED_SIZE sizeof(mtapi_boolean_t)

typedef struct {
    mtapi_uint_t num_cores, max_tasks, max_actions, max_groups, max_queues, max_objects, max_priorities, generations, journal;
} mtapi_node_attributes_t;
typedef struct { mtapi_affinity_t affinity; } mtapi_action_attributes_t;
typedef struct {
    mtapi_boolean_t is_detached;
    mtapi_uint_t priority;
    mtapi_affinity_t affinity;
} mtapi_task_attributes_t;
typedef struct {
    mtapi_uint_t priority, limit;
    mtapi_boolean_t ordered, retain;
} mtapi_queue_attributes_t;
typedef struct { char none; } mtapi_group_attributes_t;

#define MTAPI_DEFAULT_NODE_ATTRIBUTES MTAPI_NULL
#define MTAPI_DEFAULT_ACTION_ATTRIBUTES MTAPI_NULL
#define MTAPI_DEFAULT_TASK_ATTRIBUTES MTAPI_NULL
#define MTAPI_DEFAULT_QUEUE_ATTRIBUTES MTAPI_NULL
#define MTAPI_DEFAULT_GROUP_ATTRIBUTES MTAPI_NULL

/* ---- the node */
/* The version of the standard, 0x0100, and of this library; the workers are its concurrency. */
typedef struct {
    mtapi_uint_t mtapi_version, organization_id, implementation_version, number_of_domains, number_of_nodes, hardware_concurrency;
} mtapi_info_t;

void mtapi_nodeattr_init(mtapi_node_attributes_t *attributes, mtapi_status_t *status);
void mtapi_nodeattr_set(mtapi_node_attributes_t *attributes, mtapi_uint_t attribute_num, const void *attribute,
    mtapi_size_t attribute_size, mtapi_status_t *status);
void mtapi_node_get_attribute(mtapi_node_t node, mtapi_uint_t attribute_num, void *attribute, mtapi_size_t attribute_size,
    mtapi_status_t *status);
void mtapi_initialize(mtapi_domain_t domain_id, mtapi_node_t node_id, const mtapi_node_attributes_t *attributes,
    mtapi_info_t *mtapi_info, mtapi_status_t *status);
void mtapi_finalize(mtapi_status_t *status);
/* The same, and writes the text of the journal to the file, which `mtapi picture` draws and `mtapi trace` writes as a trace. */
void mtapi_ext_finalize(FILE *journal, mtapi_status_t *status);
mtapi_domain_t mtapi_domain_id_get(mtapi_status_t *status);
mtapi_node_t mtapi_node_id_get(mtapi_status_t *status);

/* ---- jobs and actions. A timeout is how long the call waits for tasks that run the action. */
typedef struct mtapi_task_context_struct mtapi_task_context_t;
typedef void (*mtapi_action_function_t)(const void *arguments, mtapi_size_t arguments_size, void *result_buffer,
    mtapi_size_t result_buffer_size, const void *node_local_data, mtapi_size_t node_local_data_size,
    mtapi_task_context_t *task_context);

void mtapi_actionattr_init(mtapi_action_attributes_t *attributes, mtapi_status_t *status);
void mtapi_actionattr_set(mtapi_action_attributes_t *attributes, mtapi_uint_t attribute_num, const void *attribute,
    mtapi_size_t attribute_size, mtapi_status_t *status);
mtapi_action_hndl_t mtapi_action_create(mtapi_job_id_t job_id, mtapi_action_function_t function, const void *node_local_data,
    mtapi_size_t node_local_data_size, const mtapi_action_attributes_t *attributes, mtapi_status_t *status);
void mtapi_action_set_attribute(mtapi_action_hndl_t action, mtapi_uint_t attribute_num, const void *attribute,
    mtapi_size_t attribute_size, mtapi_status_t *status);
void mtapi_action_get_attribute(mtapi_action_hndl_t action, mtapi_uint_t attribute_num, void *attribute,
    mtapi_size_t attribute_size, mtapi_status_t *status);
void mtapi_action_delete(mtapi_action_hndl_t action, mtapi_timeout_t timeout, mtapi_status_t *status);
void mtapi_action_disable(mtapi_action_hndl_t action, mtapi_timeout_t timeout, mtapi_status_t *status);
void mtapi_action_enable(mtapi_action_hndl_t action, mtapi_status_t *status);
mtapi_job_hndl_t mtapi_job_get(mtapi_job_id_t job_id, mtapi_domain_t domain_id, mtapi_status_t *status);

/* ---- what an action asks of its task. It runs, or is to stop: the other states are none that an action sees. */
enum {
    MTAPI_TASK_PRENATAL = 1,
    MTAPI_TASK_CREATED = 2,
    MTAPI_TASK_SCHEDULED = 3,
    MTAPI_TASK_RUNNING = 4,
    MTAPI_TASK_WAITING = 5,
    MTAPI_TASK_CANCELLED = 6,
    MTAPI_TASK_COMPLETED = 7,
    MTAPI_TASK_ERROR = 8,
    MTAPI_TASK_RETAINED = 9,
    MTAPI_TASK_DELETED = 10
};

void mtapi_context_status_set(mtapi_task_context_t *task_context, mtapi_status_t error_code, mtapi_status_t *status);
void mtapi_context_runtime_notify(const mtapi_task_context_t *task_context, mtapi_notification_t notification,
    const void *data, mtapi_size_t data_size, mtapi_status_t *status);
mtapi_task_state_t mtapi_context_taskstate_get(const mtapi_task_context_t *task_context, mtapi_status_t *status);
mtapi_uint_t mtapi_context_instnum_get(const mtapi_task_context_t *task_context, mtapi_status_t *status);
mtapi_uint_t mtapi_context_numinst_get(const mtapi_task_context_t *task_context, mtapi_status_t *status);
mtapi_uint_t mtapi_context_corenum_get(const mtapi_task_context_t *task_context, mtapi_status_t *status);

/* ---- tasks. A wait in an action holds its worker, so actions that start a task and wait for it go no deeper than there are
 * workers; where each of them waits so, the wait answers MTAPI_EXT_ERR_DEADLOCK. Put such tasks into one group, for which a
 * thread waits that is no worker. */
void mtapi_taskattr_init(mtapi_task_attributes_t *attributes, mtapi_status_t *status);
void mtapi_taskattr_set(mtapi_task_attributes_t *attributes, mtapi_uint_t attribute_num, const void *attribute,
    mtapi_size_t attribute_size, mtapi_status_t *status);
mtapi_task_hndl_t mtapi_task_start(mtapi_task_id_t task_id, mtapi_job_hndl_t job, const void *arguments,
    mtapi_size_t arguments_size, void *result_buffer, mtapi_size_t result_size, const mtapi_task_attributes_t *attributes,
    mtapi_group_hndl_t group, mtapi_status_t *status);
mtapi_task_hndl_t mtapi_task_enqueue(mtapi_task_id_t task_id, mtapi_queue_hndl_t queue, const void *arguments,
    mtapi_size_t arguments_size, void *result_buffer, mtapi_size_t result_size, const mtapi_task_attributes_t *attributes,
    mtapi_group_hndl_t group, mtapi_status_t *status);
void mtapi_task_get_attribute(mtapi_task_hndl_t task, mtapi_uint_t attribute_num, void *attribute, mtapi_size_t attribute_size,
    mtapi_status_t *status);
void mtapi_task_cancel(mtapi_task_hndl_t task, mtapi_status_t *status);
void mtapi_task_wait(mtapi_task_hndl_t task, mtapi_timeout_t timeout, mtapi_status_t *status);

/* ---- groups */
void mtapi_groupattr_init(mtapi_group_attributes_t *attributes, mtapi_status_t *status);
void mtapi_groupattr_set(mtapi_group_attributes_t *attributes, mtapi_uint_t attribute_num, const void *attribute,
    mtapi_size_t attribute_size, mtapi_status_t *status);
mtapi_group_hndl_t mtapi_group_create(mtapi_group_id_t group_id, const mtapi_group_attributes_t *attributes,
    mtapi_status_t *status);
void mtapi_group_set_attribute(mtapi_group_hndl_t group, mtapi_uint_t attribute_num, const void *attribute,
    mtapi_size_t attribute_size, mtapi_status_t *status);
void mtapi_group_get_attribute(mtapi_group_hndl_t group, mtapi_uint_t attribute_num, void *attribute,
    mtapi_size_t attribute_size, mtapi_status_t *status);
void mtapi_group_wait_all(mtapi_group_hndl_t group, mtapi_timeout_t timeout, mtapi_status_t *status);
/* *result is the result buffer of the member that ended. */
void mtapi_group_wait_any(mtapi_group_hndl_t group, void **result, mtapi_timeout_t timeout, mtapi_status_t *status);
void mtapi_group_delete(mtapi_group_hndl_t group, mtapi_status_t *status);

/* ---- queues. A timeout is how long the call waits for tasks of the queue that run. */
void mtapi_queueattr_init(mtapi_queue_attributes_t *attributes, mtapi_status_t *status);
void mtapi_queueattr_set(mtapi_queue_attributes_t *attributes, mtapi_uint_t attribute_num, const void *attribute,
    mtapi_size_t attribute_size, mtapi_status_t *status);
mtapi_queue_hndl_t mtapi_queue_create(mtapi_queue_id_t queue_id, mtapi_job_hndl_t job, const mtapi_queue_attributes_t *attributes,
    mtapi_status_t *status);
void mtapi_queue_set_attribute(mtapi_queue_hndl_t queue, mtapi_uint_t attribute_num, const void *attribute,
    mtapi_size_t attribute_size, mtapi_status_t *status);
void mtapi_queue_get_attribute(mtapi_queue_hndl_t queue, mtapi_uint_t attribute_num, void *attribute,
    mtapi_size_t attribute_size, mtapi_status_t *status);
mtapi_queue_hndl_t mtapi_queue_get(mtapi_queue_id_t queue_id, mtapi_domain_t domain_id, mtapi_status_t *status);
void mtapi_queue_delete(mtapi_queue_hndl_t queue, mtapi_timeout_t timeout, mtapi_status_t *status);
void mtapi_queue_disable(mtapi_queue_hndl_t queue, mtapi_timeout_t timeout, mtapi_status_t *status);
void mtapi_queue_enable(mtapi_queue_hndl_t queue, mtapi_status_t *status);

/* ---- sets of cores, 0 to 63 */
void mtapi_affinity_init(mtapi_affinity_t *mask, mtapi_boolean_t affinity, mtapi_status_t *status);
void mtapi_affinity_set(mtapi_affinity_t *mask, mtapi_uint_t core_num, mtapi_boolean_t affinity, mtapi_status_t *status);
mtapi_boolean_t mtapi_affinity_get(const mtapi_affinity_t *mask, mtapi_uint_t core_num, mtapi_status_t *status);

#ifdef __cplusplus
}
#endif

#endif
