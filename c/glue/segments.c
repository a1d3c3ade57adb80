/* Shared segments. The node holds who is attached, and the cells; the memory that an address leads to is the glue's. */
#include "resources.h"
#include <stdlib.h>

enum { CELL = 8 }; /* bytes */

void mrapi_shmem_init_attributes(mrapi_shmem_attributes_t *attributes, mrapi_status_t *status)
{
    if (attributes) attributes->none = 0;
    glue_say(status, attributes ? MRAPI_SUCCESS : MRAPI_ERR_PARAMETER);
}

void mrapi_shmem_set_attribute(mrapi_shmem_attributes_t *attributes, mrapi_uint_t attribute_num, const void *attribute,
    size_t attribute_size, mrapi_status_t *status)
{
    (void)attributes;
    (void)attribute;
    (void)attribute_size;
    glue_no_setting(attribute_num, status);
}

void mrapi_shmem_get_attribute(mrapi_shmem_hndl_t shmem, mrapi_uint_t attribute_num, void *attribute, size_t attribute_size,
    mrapi_status_t *status)
{
    glue_get_setting(SHMEM, shmem.handle, attribute_num, attribute, attribute_size, status);
}

static uint32_t make(uint32_t who, uint32_t id, uint32_t cells, uint64_t *shmem)
{
    return mtapi_c_shmem_create(&glue.node, who, id, cells, shmem);
}

mrapi_shmem_hndl_t mrapi_shmem_create(mrapi_shmem_id_t shmem_id, mrapi_uint_t size, const mrapi_node_t *nodes,
    mrapi_uint_t nodes_size, const mrapi_shmem_attributes_t *attributes, mrapi_uint_t attributes_size,
    mrapi_status_t *status)
{
    (void)nodes, (void)nodes_size, (void)attributes, (void)attributes_size;
    uint32_t cells = size / CELL + (size % CELL != 0);
    return (mrapi_shmem_hndl_t){glue_make_object(make, SHMEM, shmem_id, cells, status)};
}

mrapi_shmem_hndl_t mrapi_shmem_get(mrapi_shmem_id_t shmem_id, mrapi_status_t *status)
{
    return (mrapi_shmem_hndl_t){glue_get_object(mtapi_c_shmem_get, shmem_id, status)};
}

void mrapi_shmem_delete(mrapi_shmem_hndl_t shmem, mrapi_status_t *status)
{
    glue_delete_object(mtapi_c_shmem_delete, SHMEM, shmem.handle, status);
}

static uint32_t attach(uint32_t who, uint64_t shmem)
{
    uint32_t code = mtapi_c_shmem_attach(&glue.node, who, shmem);
    if (code == 0) glue_hold(who);
    return code;
}

static uint32_t detach(uint32_t who, uint64_t shmem)
{
    uint32_t code = mtapi_c_shmem_detach(&glue.node, who, shmem);
    if (code == 0) glue_let_go(who, shmem);
    return code;
}

/* The memory of a live segment, made when it is asked for first, or none. */
static void *memory_of(uint64_t shmem)
{
    struct object_record *record = &glue.objects[SHMEM][SLOT(shmem)];
    if (!record->memory) record->memory = calloc(record->setting, CELL);
    return record->memory;
}

void *mrapi_shmem_attach(mrapi_shmem_hndl_t shmem, mrapi_status_t *status)
{
    void *memory = NULL;
    uint32_t who, code = glue_begin(&who);
    if (code == 0) code = attach(who, shmem.handle);
    if (code == 0) {
        memory = memory_of(shmem.handle);
        if (!memory) {
            detach(who, shmem.handle);
            code = MTAPI_EXT_ERR_MEMORY;
        }
    }
    glue_end_mrapi(code, status);
    return memory;
}

void mrapi_ext_shmem_attach(mrapi_shmem_hndl_t shmem, mrapi_status_t *status)
{
    uint32_t who, code = glue_begin(&who);
    if (code == 0) code = attach(who, shmem.handle);
    glue_end_mrapi(code, status);
}

void mrapi_shmem_detach(mrapi_shmem_hndl_t shmem, mrapi_status_t *status)
{
    uint32_t who, code = glue_begin(&who);
    if (code == 0) code = detach(who, shmem.handle);
    glue_end_mrapi(code, status);
}

mrapi_int64_t mrapi_ext_shmem_read(mrapi_shmem_hndl_t shmem, mrapi_uint_t cell, mrapi_status_t *status)
{
    int64_t value = 0;
    uint32_t who, code = glue_begin(&who);
    if (code == 0) code = mtapi_c_shmem_read(&glue.node, who, shmem.handle, cell, &value);
    glue_end_mrapi(code, status);
    return value;
}

void mrapi_ext_shmem_write(mrapi_shmem_hndl_t shmem, mrapi_uint_t cell, mrapi_int64_t value, mrapi_status_t *status)
{
    uint32_t who, code = glue_begin(&who);
    if (code == 0) code = mtapi_c_shmem_write(&glue.node, who, shmem.handle, cell, value);
    glue_end_mrapi(code, status);
}
