/* What the files on MRAPI share. */
#ifndef MTAPI_RESOURCES_H
#define MTAPI_RESOURCES_H

#include "glue.h"

/* Ends a call of MRAPI: gives the lock back, and tells the status, which is of the node or of the glue, as one of MRAPI. */
void glue_end_mrapi(uint32_t code, mrapi_status_t *status);

/* Calls of the node: of an object; of an id, with the object that it is told. */
typedef uint32_t object_call(mtapi_c_node *node, uint32_t who, uint64_t object);
typedef uint32_t get_call(mtapi_c_node *node, uint32_t who, uint32_t id, uint64_t *object);

uint64_t glue_get_object(get_call *get, uint32_t id, mrapi_status_t *status);
void glue_delete_object(object_call *delete_it, enum object_kind kind, uint64_t object, mrapi_status_t *status);

/* Makes an object by this call, whose id is free where `id` is none. */
typedef uint32_t make_call(uint32_t who, uint32_t id, uint32_t setting, uint64_t *object);
uint64_t glue_make_object(make_call *make, enum object_kind kind, uint32_t id, uint32_t setting, mrapi_status_t *status);

/* What a thread waits for: a look at an object, with a mode where it has one, and the key that comes back where it has one. */
struct object_look {
    uint32_t who;
    uint64_t object;
    bool writer;
    int64_t key;
};
uint32_t glue_lock_object(struct object_look *look, look_function *function, mrapi_timeout_t timeout);

/* The seat has so many objects more, or fewer. Those who wait for this one look again. */
void glue_hold(uint32_t who);
void glue_let_go(uint32_t who, uint64_t object);

/* Attributes that every kind has, and that can't be set; statuses of MRAPI. */
void glue_no_setting(mrapi_uint_t number, mrapi_status_t *status);
void glue_get_setting(enum object_kind kind, uint64_t object, mrapi_uint_t number, void *attribute, size_t size,
    mrapi_status_t *status);

#endif
