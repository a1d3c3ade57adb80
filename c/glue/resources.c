/* What the calls of MRAPI share. */
#include "resources.h"
#include <stdlib.h>

/* The numbers of the glue are the same in both interfaces. */
static uint32_t mrapi_code(uint32_t code)
{
    if (code > MTAPI_C_MRAPI) return code - MTAPI_C_MRAPI;
    switch (code) {
    case MTAPI_ERR_PARAMETER: return MRAPI_ERR_PARAMETER;
    case MTAPI_ERR_NODE_NOTINIT: return MRAPI_ERR_NODE_NOTINIT;
    case MTAPI_ERR_NODE_INITIALIZED: return MRAPI_ERR_NODE_INITIALIZED;
    default: return code;
    }
}

void glue_end_mrapi(uint32_t code, mrapi_status_t *status)
{
    glue_end(mrapi_code(code), status);
}

uint64_t glue_get_object(get_call *get, uint32_t id, mrapi_status_t *status)
{
    uint64_t object = 0;
    uint32_t who, code = glue_begin(&who);
    if (code == 0) code = get(&glue.node, who, id, &object);
    glue_end_mrapi(code, status);
    return object;
}

void glue_delete_object(object_call *delete_it, enum object_kind kind, uint64_t object, mrapi_status_t *status)
{
    uint32_t who, code = glue_begin(&who);
    if (code == 0) code = delete_it(&glue.node, who, object);
    if (code == 0) {
        struct object_record *record = &glue.objects[kind][SLOT(object)];
        free(record->memory);
        *record = (struct object_record){0};
        glue_wake(FOR_OBJECT, object);
    }
    glue_end_mrapi(code, status);
}

static bool is_taken(uint32_t code)
{
    switch (code) {
    case MTAPI_C_MRAPI + MRAPI_ERR_MUTEX_EXISTS:
    case MTAPI_C_MRAPI + MRAPI_ERR_SEM_EXISTS:
    case MTAPI_C_MRAPI + MRAPI_ERR_RWL_EXISTS:
    case MTAPI_C_MRAPI + MRAPI_ERR_SHM_EXISTS: return true;
    default: return false;
    }
}

uint64_t glue_make_object(make_call *make, enum object_kind kind, uint32_t id, uint32_t setting, mrapi_status_t *status)
{
    bool any = id == MRAPI_MUTEX_ID_ANY;
    uint64_t object = 0;
    uint32_t who, code = glue_begin(&who);
    if (code == 0) {
        do code = make(who, any ? glue.next_id-- : id, setting, &object);
        while (any && is_taken(code));
    }
    if (code == 0) glue.objects[kind][SLOT(object)] = (struct object_record){object, setting, NULL};
    glue_end_mrapi(code, status);
    return object;
}

void glue_hold(uint32_t who)
{
    glue.caller[who - glue.workers].held++;
}

void glue_let_go(uint32_t who, uint64_t object)
{
    glue.caller[who - glue.workers].held--;
    glue_wake(FOR_OBJECT, object);
}

uint32_t glue_lock_object(struct object_look *look, look_function *function, mrapi_timeout_t timeout)
{
    int64_t milliseconds = timeout == MRAPI_TIMEOUT_INFINITE ? -1 : (int64_t)timeout;
    uint32_t code = glue_wait(FOR_OBJECT, look->object, milliseconds, function, look);
    if (code == 0) glue_hold(look->who);
    return code;
}

static bool is_fixed(mrapi_uint_t number)
{
    return number == MRAPI_ERROR_EXT || number == MRAPI_DOMAIN_SHARED;
}

void glue_no_setting(mrapi_uint_t number, mrapi_status_t *status)
{
    glue_say(status, is_fixed(number) ? MRAPI_ERR_ATTR_READONLY : MRAPI_ERR_ATTR_NUM);
}

static const uint32_t invalid[KINDS] = {MRAPI_ERR_MUTEX_INVALID, MRAPI_ERR_SEM_INVALID, MRAPI_ERR_RWL_INVALID,
    MRAPI_ERR_SHM_INVALID};

static uint32_t get_setting(enum object_kind kind, uint64_t object, mrapi_uint_t number, void *attribute, size_t size)
{
    const struct object_record *record = &glue.objects[kind][SLOT(object) % MOST_OBJECTS];
    uint32_t value = number == MRAPI_ERROR_EXT || (number == MRAPI_MUTEX_RECURSIVE && record->setting);
    if (object == 0 || record->handle != object) return MTAPI_C_MRAPI + invalid[kind];
    if (!is_fixed(number) && !(kind == MUTEX && number == MRAPI_MUTEX_RECURSIVE)) return MRAPI_ERR_ATTR_NUM;
    uint32_t code = glue_write_value(attribute, size, value);
    return code == MTAPI_ERR_ATTR_SIZE ? (uint32_t)MRAPI_ERR_ATTR_SIZE : code;
}

void glue_get_setting(enum object_kind kind, uint64_t object, mrapi_uint_t number, void *attribute, size_t size,
    mrapi_status_t *status)
{
    uint32_t who, code = glue_begin(&who);
    if (code == 0) code = get_setting(kind, object, number, attribute, size);
    glue_end_mrapi(code, status);
}
