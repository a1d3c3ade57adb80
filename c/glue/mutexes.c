/* Mutexes. */
#include "resources.h"

void mrapi_mutex_init_attributes(mrapi_mutex_attributes_t *attributes, mrapi_status_t *status)
{
    if (attributes) attributes->is_recursive = MRAPI_FALSE;
    glue_say(status, attributes ? MRAPI_SUCCESS : MRAPI_ERR_PARAMETER);
}

static uint32_t set_recursive(mrapi_mutex_attributes_t *attributes, const void *attribute, size_t size)
{
    uint32_t value;
    if (!attribute) return MRAPI_ERR_PARAMETER;
    if (size != sizeof value) return MRAPI_ERR_ATTR_SIZE;
    glue_read_value(attribute, size, &value);
    if (value > MRAPI_TRUE) return MRAPI_ERR_PARAMETER;
    attributes->is_recursive = value;
    return 0;
}

void mrapi_mutex_set_attribute(mrapi_mutex_attributes_t *attributes, mrapi_uint_t attribute_num, const void *attribute,
    size_t attribute_size, mrapi_status_t *status)
{
    if (!attributes) glue_say(status, MRAPI_ERR_PARAMETER);
    else if (attribute_num != MRAPI_MUTEX_RECURSIVE) glue_no_setting(attribute_num, status);
    else glue_say(status, set_recursive(attributes, attribute, attribute_size));
}

void mrapi_mutex_get_attribute(mrapi_mutex_hndl_t mutex, mrapi_uint_t attribute_num, void *attribute, size_t attribute_size,
    mrapi_status_t *status)
{
    glue_get_setting(MUTEX, mutex.handle, attribute_num, attribute, attribute_size, status);
}

static uint32_t make(uint32_t who, uint32_t id, uint32_t recursive, uint64_t *mutex)
{
    return mtapi_c_mutex_create(&glue.node, who, id, recursive != 0, mutex);
}

mrapi_mutex_hndl_t mrapi_mutex_create(mrapi_mutex_id_t mutex_id, const mrapi_mutex_attributes_t *attributes,
    mrapi_status_t *status)
{
    bool recursive = attributes && attributes->is_recursive;
    return (mrapi_mutex_hndl_t){glue_make_object(make, MUTEX, mutex_id, recursive, status)};
}

mrapi_mutex_hndl_t mrapi_mutex_get(mrapi_mutex_id_t mutex_id, mrapi_status_t *status)
{
    return (mrapi_mutex_hndl_t){glue_get_object(mtapi_c_mutex_get, mutex_id, status)};
}

void mrapi_mutex_delete(mrapi_mutex_hndl_t mutex, mrapi_status_t *status)
{
    glue_delete_object(mtapi_c_mutex_delete, MUTEX, mutex.handle, status);
}

static uint32_t look_at_mutex(void *call, bool last)
{
    struct object_look *look = call;
    return mtapi_c_mutex_look(&glue.node, look->who, look->object, last, &look->key);
}

static uint32_t lock(mrapi_mutex_hndl_t mutex, mrapi_key_t *key, mrapi_timeout_t timeout)
{
    struct object_look look = {.object = mutex.handle};
    uint32_t code = glue_begin(&look.who);
    if (code == 0 && !key) code = MTAPI_ERR_PARAMETER;
    if (code == 0) code = glue_lock_object(&look, look_at_mutex, timeout);
    if (code == 0) *key = (mrapi_key_t)look.key;
    return code;
}

void mrapi_mutex_lock(mrapi_mutex_hndl_t mutex, mrapi_key_t *lock_key, mrapi_timeout_t timeout, mrapi_status_t *status)
{
    uint32_t code = lock(mutex, lock_key, timeout);
    glue_end_mrapi(code, status);
}

mrapi_boolean_t mrapi_mutex_trylock(mrapi_mutex_hndl_t mutex, mrapi_key_t *lock_key, mrapi_status_t *status)
{
    uint32_t code = lock(mutex, lock_key, MRAPI_TIMEOUT_IMMEDIATE);
    glue_end_mrapi(code, status);
    return code == 0 ? MRAPI_TRUE : MRAPI_FALSE;
}

void mrapi_mutex_unlock(mrapi_mutex_hndl_t mutex, const mrapi_key_t *lock_key, mrapi_status_t *status)
{
    uint32_t who, code = glue_begin(&who);
    if (code == 0 && !lock_key) code = MTAPI_ERR_PARAMETER;
    if (code == 0) code = mtapi_c_mutex_unlock(&glue.node, who, mutex.handle, *lock_key);
    if (code == 0) glue_let_go(who, mutex.handle);
    glue_end_mrapi(code, status);
}
