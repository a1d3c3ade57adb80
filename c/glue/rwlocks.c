/* Reader-writer locks. */
#include "resources.h"

void mrapi_rwl_init_attributes(mrapi_rwl_attributes_t *attributes, mrapi_status_t *status)
{
    if (attributes) attributes->none = 0;
    glue_say(status, attributes ? MRAPI_SUCCESS : MRAPI_ERR_PARAMETER);
}

void mrapi_rwl_set_attribute(mrapi_rwl_attributes_t *attributes, mrapi_uint_t attribute_num, const void *attribute,
    size_t attribute_size, mrapi_status_t *status)
{
    (void)attributes;
    (void)attribute;
    (void)attribute_size;
    glue_no_setting(attribute_num, status);
}

void mrapi_rwl_get_attribute(mrapi_rwl_hndl_t rwl, mrapi_uint_t attribute_num, void *attribute, size_t attribute_size,
    mrapi_status_t *status)
{
    glue_get_setting(RWL, rwl.handle, attribute_num, attribute, attribute_size, status);
}

static uint32_t make(uint32_t who, uint32_t id, uint32_t limit, uint64_t *rwl)
{
    return mtapi_c_rwl_create(&glue.node, who, id, limit, rwl);
}

mrapi_rwl_hndl_t mrapi_rwl_create(mrapi_rwl_id_t rwl_id, const mrapi_rwl_attributes_t *attributes,
    mrapi_uint_t reader_lock_limit, mrapi_status_t *status)
{
    (void)attributes;
    return (mrapi_rwl_hndl_t){glue_make_object(make, RWL, rwl_id, reader_lock_limit, status)};
}

mrapi_rwl_hndl_t mrapi_rwl_get(mrapi_rwl_id_t rwl_id, mrapi_status_t *status)
{
    return (mrapi_rwl_hndl_t){glue_get_object(mtapi_c_rwl_get, rwl_id, status)};
}

void mrapi_rwl_delete(mrapi_rwl_hndl_t rwl, mrapi_status_t *status)
{
    glue_delete_object(mtapi_c_rwl_delete, RWL, rwl.handle, status);
}

static uint32_t look_at_rwl(void *call, bool last)
{
    struct object_look *look = call;
    return mtapi_c_rwl_look(&glue.node, look->who, look->object, look->writer, last);
}

/* Whether it is one of both modes. */
static bool is_mode(mrapi_rwl_mode_t mode)
{
    return mode == MRAPI_RWL_READER || mode == MRAPI_RWL_WRITER;
}

static uint32_t lock(mrapi_rwl_hndl_t rwl, mrapi_rwl_mode_t mode, mrapi_timeout_t timeout)
{
    struct object_look look = {.object = rwl.handle, .writer = mode == MRAPI_RWL_WRITER};
    uint32_t code = glue_begin(&look.who);
    if (code == 0 && !is_mode(mode)) code = MTAPI_ERR_PARAMETER;
    return code ? code : glue_lock_object(&look, look_at_rwl, timeout);
}

void mrapi_rwl_lock(mrapi_rwl_hndl_t rwl, mrapi_rwl_mode_t mode, mrapi_timeout_t timeout, mrapi_status_t *status)
{
    uint32_t code = lock(rwl, mode, timeout);
    glue_end_mrapi(code, status);
}

mrapi_boolean_t mrapi_rwl_trylock(mrapi_rwl_hndl_t rwl, mrapi_rwl_mode_t mode, mrapi_status_t *status)
{
    uint32_t code = lock(rwl, mode, MRAPI_TIMEOUT_IMMEDIATE);
    glue_end_mrapi(code, status);
    return code == 0 ? MRAPI_TRUE : MRAPI_FALSE;
}

void mrapi_rwl_unlock(mrapi_rwl_hndl_t rwl, mrapi_rwl_mode_t mode, mrapi_status_t *status)
{
    uint32_t who, code = glue_begin(&who);
    if (code == 0 && !is_mode(mode)) code = MTAPI_ERR_PARAMETER;
    if (code == 0) code = mtapi_c_rwl_unlock(&glue.node, who, rwl.handle, mode == MRAPI_RWL_WRITER);
    if (code == 0) glue_let_go(who, rwl.handle);
    glue_end_mrapi(code, status);
}
