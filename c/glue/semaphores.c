/* Semaphores. */
#include "resources.h"

void mrapi_sem_init_attributes(mrapi_sem_attributes_t *attributes, mrapi_status_t *status)
{
    if (attributes) attributes->none = 0;
    glue_say(status, attributes ? MRAPI_SUCCESS : MRAPI_ERR_PARAMETER);
}

void mrapi_sem_set_attribute(mrapi_sem_attributes_t *attributes, mrapi_uint_t attribute_num, const void *attribute,
    size_t attribute_size, mrapi_status_t *status)
{
    (void)attributes;
    (void)attribute;
    (void)attribute_size;
    glue_no_setting(attribute_num, status);
}

void mrapi_sem_get_attribute(mrapi_sem_hndl_t sem, mrapi_uint_t attribute_num, void *attribute, size_t attribute_size,
    mrapi_status_t *status)
{
    glue_get_setting(SEM, sem.handle, attribute_num, attribute, attribute_size, status);
}

static uint32_t make(uint32_t who, uint32_t id, uint32_t limit, uint64_t *sem)
{
    return mtapi_c_sem_create(&glue.node, who, id, limit, sem);
}

mrapi_sem_hndl_t mrapi_sem_create(mrapi_sem_id_t sem_id, const mrapi_sem_attributes_t *attributes,
    mrapi_uint_t shared_lock_limit, mrapi_status_t *status)
{
    (void)attributes;
    return (mrapi_sem_hndl_t){glue_make_object(make, SEM, sem_id, shared_lock_limit, status)};
}

mrapi_sem_hndl_t mrapi_sem_get(mrapi_sem_id_t sem_id, mrapi_status_t *status)
{
    return (mrapi_sem_hndl_t){glue_get_object(mtapi_c_sem_get, sem_id, status)};
}

void mrapi_sem_delete(mrapi_sem_hndl_t sem, mrapi_status_t *status)
{
    glue_delete_object(mtapi_c_sem_delete, SEM, sem.handle, status);
}

static uint32_t look_at_sem(void *call, bool last)
{
    struct object_look *look = call;
    return mtapi_c_sem_look(&glue.node, look->who, look->object, last);
}

static uint32_t lock(mrapi_sem_hndl_t sem, mrapi_timeout_t timeout)
{
    struct object_look look = {.object = sem.handle};
    uint32_t code = glue_begin(&look.who);
    return code ? code : glue_lock_object(&look, look_at_sem, timeout);
}

void mrapi_sem_lock(mrapi_sem_hndl_t sem, mrapi_timeout_t timeout, mrapi_status_t *status)
{
    uint32_t code = lock(sem, timeout);
    glue_end_mrapi(code, status);
}

mrapi_boolean_t mrapi_sem_trylock(mrapi_sem_hndl_t sem, mrapi_status_t *status)
{
    uint32_t code = lock(sem, MRAPI_TIMEOUT_IMMEDIATE);
    glue_end_mrapi(code, status);
    return code == 0 ? MRAPI_TRUE : MRAPI_FALSE;
}

void mrapi_sem_unlock(mrapi_sem_hndl_t sem, mrapi_status_t *status)
{
    uint32_t who, code = glue_begin(&who);
    if (code == 0) code = mtapi_c_sem_unlock(&glue.node, who, sem.handle);
    if (code == 0) glue_let_go(who, sem.handle);
    glue_end_mrapi(code, status);
}
