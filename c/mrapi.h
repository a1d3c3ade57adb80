/* MRAPI 1.0, as this library has it: mutexes, semaphores, reader-writer locks and shared segments of the node of mtapi.h.
 *
 * What a caller owes stands at the head of mtapi.h. A lock is held by the thread that took it, and given back by it; a
 * thread that ends while it holds one keeps its place among the callers. An action can't call these: its worker is refused
 * with MRAPI_ERR_PARAMETER. docs/c.md has a table of what differs from the standard. */
#ifndef MRAPI_H
#define MRAPI_H

#include <stddef.h>
#include <stdint.h>

#ifdef __cplusplus
extern "C" {
#endif

#define MRAPI_IN const
#define MRAPI_OUT
#define MRAPI_INOUT
#define MRAPI_NULL NULL
#define MRAPI_FALSE 0
#define MRAPI_TRUE 1

typedef int32_t mrapi_int_t;
typedef uint32_t mrapi_uint_t;
typedef int8_t mrapi_int8_t;
typedef int16_t mrapi_int16_t;
typedef int32_t mrapi_int32_t;
typedef int64_t mrapi_int64_t;
typedef uint8_t mrapi_uint8_t;
typedef uint16_t mrapi_uint16_t;
typedef uint32_t mrapi_uint32_t;
typedef uint64_t mrapi_uint64_t;
typedef uint32_t mrapi_boolean_t;
typedef uint32_t mrapi_status_t;
typedef uint32_t mrapi_domain_t;
typedef uint32_t mrapi_node_t;
typedef uint32_t mrapi_mutex_id_t;
typedef uint32_t mrapi_sem_id_t;
typedef uint32_t mrapi_rwl_id_t;
typedef uint32_t mrapi_shmem_id_t;
typedef uint32_t mrapi_key_t;
typedef enum { MRAPI_RWL_READER = 0, MRAPI_RWL_WRITER = 1 } mrapi_rwl_mode_t;
#define MRAPI_READER MRAPI_RWL_READER
#define MRAPI_WRITER MRAPI_RWL_WRITER

/* Milliseconds. */
typedef uint32_t mrapi_timeout_t;
#define MRAPI_TIMEOUT_IMMEDIATE ((mrapi_timeout_t)0)
#define MRAPI_TIMEOUT_INFINITE ((mrapi_timeout_t)0xffffffff)

typedef struct { uint64_t handle; } mrapi_mutex_hndl_t;
typedef struct { uint64_t handle; } mrapi_sem_hndl_t;
typedef struct { uint64_t handle; } mrapi_rwl_hndl_t;
typedef struct { uint64_t handle; } mrapi_shmem_hndl_t;

/* For an id that no other one has. */
#define MRAPI_MUTEX_ID_ANY ((mrapi_mutex_id_t)0xffffffff)
#define MRAPI_SEM_ID_ANY ((mrapi_sem_id_t)0xffffffff)
#define MRAPI_RWL_ID_ANY ((mrapi_rwl_id_t)0xffffffff)
#define MRAPI_SHMEM_ID_ANY ((mrapi_shmem_id_t)0xffffffff)

/* ---- statuses: those of the node, by its numbers */
enum {
    MRAPI_SUCCESS = 0,
    MRAPI_TIMEOUT = 1,
    MRAPI_ERR_PARAMETER = 2,
    MRAPI_ERR_NODE_NOTINIT = 3,
    MRAPI_ERR_MUTEX_INVALID = 4,
    MRAPI_ERR_MUTEX_ID_INVALID = 5,
    MRAPI_ERR_MUTEX_EXISTS = 6,
    MRAPI_ERR_MUTEX_LIMIT = 7,
    MRAPI_ERR_MUTEX_LOCKED = 8,
    MRAPI_ERR_MUTEX_NOTLOCKED = 9,
    MRAPI_ERR_MUTEX_KEY = 10,
    MRAPI_ERR_MUTEX_LOCKORDER = 11,
    MRAPI_ERR_SEM_INVALID = 12,
    MRAPI_ERR_SEM_ID_INVALID = 13,
    MRAPI_ERR_SEM_EXISTS = 14,
    MRAPI_ERR_SEM_LOCKED = 15,
    MRAPI_ERR_SEM_NOTLOCKED = 16,
    MRAPI_ERR_RWL_INVALID = 17,
    MRAPI_ERR_RWL_ID_INVALID = 18,
    MRAPI_ERR_RWL_EXISTS = 19,
    MRAPI_ERR_RWL_LIMIT = 20,
    MRAPI_ERR_RWL_LOCKED = 21,
    MRAPI_ERR_RWL_NOTLOCKED = 22,
    MRAPI_ERR_SHM_INVALID = 23,
    MRAPI_ERR_SHM_ID_INVALID = 24,
    MRAPI_ERR_SHM_EXISTS = 25,
    MRAPI_ERR_SHM_LIMIT = 26,
    MRAPI_ERR_SHM_ATTACHED = 27,
    MRAPI_ERR_SHM_NOTATTACHED = 28,
    MRAPI_ERR_SPENT = 29,
    MRAPI_ERR_SEM_LIMIT = 30,

    /* those of the glue */
    MRAPI_ERR_NOT_SUPPORTED = 64,     /* the profile leaves this out */
    MRAPI_ERR_NODE_INITFAILED = 65,   /* a thread was refused */
    MRAPI_ERR_ATTR_SIZE = 66,
    MRAPI_ERR_ATTR_NUM = 67,
    MRAPI_ERR_ATTR_READONLY = 68,
    MRAPI_ERR_NODE_INITIALIZED = 69,
    MRAPI_EXT_ERR_MEMORY = 99,        /* out of memory */
    MRAPI_EXT_ERR_CALLER_LIMIT = 104, /* main and eight further threads have called, and none of them has ended */
    MRAPI_EXT_ERR_DEADLOCK = 105,     /* nothing can happen any more, or an action would finalize the node */

    /* those of the standard that nothing here answers: what was deleted is invalid */
    MRAPI_ERR_MUTEX_DELETED = 80,
    MRAPI_ERR_SEM_DELETED = 81,
    MRAPI_ERR_RWL_DELETED = 82
};

/* Writes the name of a status into `message`, of `size` bytes, and gives `message`; MRAPI_NULL if it doesn't fit. */
char *mrapi_display_status(mrapi_status_t status, char *message, size_t size);

/* ---- attributes, by address and size. Each is a mrapi_uint_t. */
enum {
    MRAPI_MUTEX_RECURSIVE = 1, /* of a mutex (MRAPI_FALSE) */
    MRAPI_ERROR_EXT = 2,       /* read-only: MRAPI_TRUE, each call is checked */
    MRAPI_DOMAIN_SHARED = 3    /* read-only: MRAPI_FALSE */
};

typedef struct { mrapi_boolean_t is_recursive; } mrapi_mutex_attributes_t;
typedef struct { char none; } mrapi_sem_attributes_t;
typedef struct { char none; } mrapi_rwl_attributes_t;
typedef struct { char none; } mrapi_shmem_attributes_t;

/* ---- the node: the one of mtapi_initialize; where none stands, one with the default settings. It is finalized by
 * mtapi_finalize, and where mrapi_initialize made it also by mrapi_finalize. */
typedef const void *mrapi_parameters_t; /* not read */
typedef struct {
    mrapi_uint_t mrapi_version, organization_id, implementation_version, number_of_domains, number_of_nodes;
} mrapi_info_t;

void mrapi_initialize(mrapi_domain_t domain_id, mrapi_node_t node_id, mrapi_parameters_t init_parameters,
    mrapi_info_t *mrapi_info, mrapi_status_t *status);
void mrapi_finalize(mrapi_status_t *status);
mrapi_domain_t mrapi_domain_id_get(mrapi_status_t *status);
mrapi_node_t mrapi_node_id_get(mrapi_status_t *status);

/* ---- mutexes. A lock gives a key, 1 to 64, which is its depth; the last key goes back first. */
void mrapi_mutex_init_attributes(mrapi_mutex_attributes_t *attributes, mrapi_status_t *status);
void mrapi_mutex_set_attribute(mrapi_mutex_attributes_t *attributes, mrapi_uint_t attribute_num, const void *attribute,
    size_t attribute_size, mrapi_status_t *status);
void mrapi_mutex_get_attribute(mrapi_mutex_hndl_t mutex, mrapi_uint_t attribute_num, void *attribute, size_t attribute_size,
    mrapi_status_t *status);
mrapi_mutex_hndl_t mrapi_mutex_create(mrapi_mutex_id_t mutex_id, const mrapi_mutex_attributes_t *attributes,
    mrapi_status_t *status);
mrapi_mutex_hndl_t mrapi_mutex_get(mrapi_mutex_id_t mutex_id, mrapi_status_t *status);
void mrapi_mutex_delete(mrapi_mutex_hndl_t mutex, mrapi_status_t *status);
void mrapi_mutex_lock(mrapi_mutex_hndl_t mutex, mrapi_key_t *lock_key, mrapi_timeout_t timeout, mrapi_status_t *status);
mrapi_boolean_t mrapi_mutex_trylock(mrapi_mutex_hndl_t mutex, mrapi_key_t *lock_key, mrapi_status_t *status);
void mrapi_mutex_unlock(mrapi_mutex_hndl_t mutex, const mrapi_key_t *lock_key, mrapi_status_t *status);

/* ---- semaphores, held at most `shared_lock_limit` times at once, 1 to 65,535 */
void mrapi_sem_init_attributes(mrapi_sem_attributes_t *attributes, mrapi_status_t *status);
void mrapi_sem_set_attribute(mrapi_sem_attributes_t *attributes, mrapi_uint_t attribute_num, const void *attribute,
    size_t attribute_size, mrapi_status_t *status);
void mrapi_sem_get_attribute(mrapi_sem_hndl_t sem, mrapi_uint_t attribute_num, void *attribute, size_t attribute_size,
    mrapi_status_t *status);
mrapi_sem_hndl_t mrapi_sem_create(mrapi_sem_id_t sem_id, const mrapi_sem_attributes_t *attributes,
    mrapi_uint_t shared_lock_limit, mrapi_status_t *status);
mrapi_sem_hndl_t mrapi_sem_get(mrapi_sem_id_t sem_id, mrapi_status_t *status);
void mrapi_sem_delete(mrapi_sem_hndl_t sem, mrapi_status_t *status);
void mrapi_sem_lock(mrapi_sem_hndl_t sem, mrapi_timeout_t timeout, mrapi_status_t *status);
mrapi_boolean_t mrapi_sem_trylock(mrapi_sem_hndl_t sem, mrapi_status_t *status);
void mrapi_sem_unlock(mrapi_sem_hndl_t sem, mrapi_status_t *status);

/* ---- reader-writer locks, for at most `reader_lock_limit` readers at once, 1 to 32 */
void mrapi_rwl_init_attributes(mrapi_rwl_attributes_t *attributes, mrapi_status_t *status);
void mrapi_rwl_set_attribute(mrapi_rwl_attributes_t *attributes, mrapi_uint_t attribute_num, const void *attribute,
    size_t attribute_size, mrapi_status_t *status);
void mrapi_rwl_get_attribute(mrapi_rwl_hndl_t rwl, mrapi_uint_t attribute_num, void *attribute, size_t attribute_size,
    mrapi_status_t *status);
mrapi_rwl_hndl_t mrapi_rwl_create(mrapi_rwl_id_t rwl_id, const mrapi_rwl_attributes_t *attributes,
    mrapi_uint_t reader_lock_limit, mrapi_status_t *status);
mrapi_rwl_hndl_t mrapi_rwl_get(mrapi_rwl_id_t rwl_id, mrapi_status_t *status);
void mrapi_rwl_delete(mrapi_rwl_hndl_t rwl, mrapi_status_t *status);
void mrapi_rwl_lock(mrapi_rwl_hndl_t rwl, mrapi_rwl_mode_t mode, mrapi_timeout_t timeout, mrapi_status_t *status);
mrapi_boolean_t mrapi_rwl_trylock(mrapi_rwl_hndl_t rwl, mrapi_rwl_mode_t mode, mrapi_status_t *status);
void mrapi_rwl_unlock(mrapi_rwl_hndl_t rwl, mrapi_rwl_mode_t mode, mrapi_status_t *status);

/* ---- segments of 1 to 32,768 bytes. A caller attaches itself by mrapi_shmem_attach, which gives the address of the segment's
 * memory, at first 0; mrapi_shmem_detach ends that. The address is good until the segment is deleted or the node finalized.
 * Beside its memory a segment has cells of eight bytes each, 1 to 4,096 as its size asks for, at first 0, which the node holds
 * and calls read and write: mrapi_ext_shmem_attach is for those alone. `nodes` and `attributes` aren't read. */
void mrapi_shmem_init_attributes(mrapi_shmem_attributes_t *attributes, mrapi_status_t *status);
void mrapi_shmem_set_attribute(mrapi_shmem_attributes_t *attributes, mrapi_uint_t attribute_num, const void *attribute,
    size_t attribute_size, mrapi_status_t *status);
void mrapi_shmem_get_attribute(mrapi_shmem_hndl_t shmem, mrapi_uint_t attribute_num, void *attribute, size_t attribute_size,
    mrapi_status_t *status);
mrapi_shmem_hndl_t mrapi_shmem_create(mrapi_shmem_id_t shmem_id, mrapi_uint_t size, const mrapi_node_t *nodes,
    mrapi_uint_t nodes_size, const mrapi_shmem_attributes_t *attributes, mrapi_uint_t attributes_size, mrapi_status_t *status);
mrapi_shmem_hndl_t mrapi_shmem_get(mrapi_shmem_id_t shmem_id, mrapi_status_t *status);
void mrapi_shmem_delete(mrapi_shmem_hndl_t shmem, mrapi_status_t *status);
void *mrapi_shmem_attach(mrapi_shmem_hndl_t shmem, mrapi_status_t *status);
void mrapi_ext_shmem_attach(mrapi_shmem_hndl_t shmem, mrapi_status_t *status);
void mrapi_shmem_detach(mrapi_shmem_hndl_t shmem, mrapi_status_t *status);
mrapi_int64_t mrapi_ext_shmem_read(mrapi_shmem_hndl_t shmem, mrapi_uint_t cell, mrapi_status_t *status);
void mrapi_ext_shmem_write(mrapi_shmem_hndl_t shmem, mrapi_uint_t cell, mrapi_int64_t value, mrapi_status_t *status);

/* ---- left out: each answers MRAPI_ERR_NOT_SUPPORTED and does nothing. Remote memory, requests that aren't done when the call
 * returns, trees of resources with their metadata and callbacks, and attributes of a node. */
typedef uint32_t mrapi_rmem_id_t;
typedef uint32_t mrapi_rmem_atype_t;
typedef uint32_t mrapi_event_t;
typedef uint32_t mrapi_resource_filter_t;
typedef size_t mrapi_size_t;
#define MRAPI_RMEM_DEFAULT ((mrapi_rmem_atype_t)0)
#define MRAPI_RSRC_MEM ((mrapi_resource_filter_t)0)
#define MRAPI_RSRC_CACHE ((mrapi_resource_filter_t)1)
#define MRAPI_RSRC_DMA ((mrapi_resource_filter_t)2)
#define MRAPI_RSRC_CPU ((mrapi_resource_filter_t)3)
typedef struct { uint64_t handle; } mrapi_rmem_hndl_t;
typedef struct { uint64_t handle; } mrapi_request_t;
typedef struct { char none; } mrapi_rmem_attributes_t;
typedef struct { char none; } mrapi_node_attributes_t;
typedef struct mrapi_resource_struct mrapi_resource_t;
typedef void (*mrapi_callback_t)(mrapi_event_t event);

void mrapi_node_init_attributes(mrapi_node_attributes_t *attributes, mrapi_status_t *status);
void mrapi_node_set_attribute(mrapi_node_attributes_t *attributes, mrapi_uint_t attribute_num, const void *attribute,
    size_t attribute_size, mrapi_status_t *status);
void mrapi_node_get_attribute(mrapi_node_t node, mrapi_uint_t attribute_num, void *attribute, size_t attribute_size,
    mrapi_status_t *status);
void mrapi_rmem_init_attributes(mrapi_rmem_attributes_t *attributes, mrapi_status_t *status);
void mrapi_rmem_set_attribute(mrapi_rmem_attributes_t *attributes, mrapi_uint_t attribute_num, const void *attribute,
    size_t attribute_size, mrapi_status_t *status);
void mrapi_rmem_get_attribute(mrapi_rmem_hndl_t rmem, mrapi_uint_t attribute_num, void *attribute,
    size_t attribute_size, mrapi_status_t *status);
mrapi_rmem_hndl_t mrapi_rmem_create(mrapi_rmem_id_t rmem_id, void *mem, mrapi_rmem_atype_t access_type,
    const mrapi_rmem_attributes_t *attributes, mrapi_uint_t size, mrapi_status_t *status);
mrapi_rmem_hndl_t mrapi_rmem_get(mrapi_rmem_id_t rmem_id, mrapi_rmem_atype_t access_type, mrapi_status_t *status);
void mrapi_rmem_attach(mrapi_rmem_hndl_t rmem, mrapi_rmem_atype_t access_type, mrapi_status_t *status);
void mrapi_rmem_detach(mrapi_rmem_hndl_t rmem, mrapi_status_t *status);
void mrapi_rmem_delete(mrapi_rmem_hndl_t rmem, mrapi_status_t *status);
void mrapi_rmem_read(mrapi_rmem_hndl_t rmem, mrapi_uint32_t rmem_offset, void *local_buf, mrapi_uint32_t local_offset,
    mrapi_uint32_t bytes_per_access, mrapi_uint32_t num_strides, mrapi_uint32_t rmem_stride,
    mrapi_uint32_t local_stride, mrapi_status_t *status);
void mrapi_rmem_write(mrapi_rmem_hndl_t rmem, mrapi_uint32_t rmem_offset, const void *local_buf,
    mrapi_uint32_t local_offset, mrapi_uint32_t bytes_per_access, mrapi_uint32_t num_strides,
    mrapi_uint32_t rmem_stride, mrapi_uint32_t local_stride, mrapi_status_t *status);
mrapi_request_t mrapi_rmem_read_i(mrapi_rmem_hndl_t rmem, mrapi_uint32_t rmem_offset, void *local_buf,
    mrapi_uint32_t local_offset, mrapi_uint32_t bytes_per_access, mrapi_uint32_t num_strides,
    mrapi_uint32_t rmem_stride, mrapi_uint32_t local_stride, mrapi_status_t *status);
mrapi_request_t mrapi_rmem_write_i(mrapi_rmem_hndl_t rmem, mrapi_uint32_t rmem_offset, const void *local_buf,
    mrapi_uint32_t local_offset, mrapi_uint32_t bytes_per_access, mrapi_uint32_t num_strides,
    mrapi_uint32_t rmem_stride, mrapi_uint32_t local_stride, mrapi_status_t *status);
void mrapi_rmem_flush(mrapi_rmem_hndl_t rmem, mrapi_status_t *status);
void mrapi_rmem_sync(mrapi_rmem_hndl_t rmem, mrapi_status_t *status);
mrapi_boolean_t mrapi_test(const mrapi_request_t *request, size_t *size, mrapi_status_t *status);
mrapi_boolean_t mrapi_wait(const mrapi_request_t *request, size_t *size, mrapi_timeout_t timeout,
    mrapi_status_t *status);
mrapi_uint_t mrapi_wait_any(size_t number, const mrapi_request_t *requests, size_t *size, mrapi_timeout_t timeout,
    mrapi_status_t *status);
void mrapi_cancel(const mrapi_request_t *request, mrapi_status_t *status);
mrapi_resource_t *mrapi_resources_get(mrapi_resource_filter_t subsystem_filter, mrapi_status_t *status);
void mrapi_resource_get_attribute(const mrapi_resource_t *resource, mrapi_uint_t attribute_num, void *attribute_value,
    size_t attribute_size, mrapi_status_t *status);
void mrapi_dynamic_attribute_start(const mrapi_resource_t *resource, mrapi_uint_t attribute_num,
    mrapi_status_t *status);
void mrapi_dynamic_attribute_reset(const mrapi_resource_t *resource, mrapi_uint_t attribute_num,
    mrapi_status_t *status);
void mrapi_dynamic_attribute_stop(const mrapi_resource_t *resource, mrapi_uint_t attribute_num,
    mrapi_status_t *status);
void mrapi_resource_register_callback(mrapi_event_t event, mrapi_uint_t frequency, mrapi_callback_t callback_function,
    mrapi_status_t *status);
void mrapi_resource_tree_free(mrapi_resource_t **root, mrapi_status_t *status);

#ifdef __cplusplus
}
#endif

#endif
