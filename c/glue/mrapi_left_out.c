/* What the profile leaves out of MRAPI. */
#include "glue.h"

void mrapi_node_init_attributes(mrapi_node_attributes_t *attributes, mrapi_status_t *status)
{
    (void)attributes;
    glue_say(status, MRAPI_ERR_NOT_SUPPORTED);
}

void mrapi_node_set_attribute(mrapi_node_attributes_t *attributes, mrapi_uint_t attribute_num, const void *attribute,
    size_t attribute_size, mrapi_status_t *status)
{
    (void)attributes, (void)attribute_num, (void)attribute, (void)attribute_size;
    glue_say(status, MRAPI_ERR_NOT_SUPPORTED);
}

void mrapi_node_get_attribute(mrapi_node_t node, mrapi_uint_t attribute_num, void *attribute, size_t attribute_size,
    mrapi_status_t *status)
{
    (void)node, (void)attribute_num, (void)attribute, (void)attribute_size;
    glue_say(status, MRAPI_ERR_NOT_SUPPORTED);
}

void mrapi_rmem_init_attributes(mrapi_rmem_attributes_t *attributes, mrapi_status_t *status)
{
    (void)attributes;
    glue_say(status, MRAPI_ERR_NOT_SUPPORTED);
}

void mrapi_rmem_set_attribute(mrapi_rmem_attributes_t *attributes, mrapi_uint_t attribute_num, const void *attribute,
    size_t attribute_size, mrapi_status_t *status)
{
    (void)attributes, (void)attribute_num, (void)attribute, (void)attribute_size;
    glue_say(status, MRAPI_ERR_NOT_SUPPORTED);
}

void mrapi_rmem_get_attribute(mrapi_rmem_hndl_t rmem, mrapi_uint_t attribute_num, void *attribute,
    size_t attribute_size, mrapi_status_t *status)
{
    (void)rmem, (void)attribute_num, (void)attribute, (void)attribute_size;
    glue_say(status, MRAPI_ERR_NOT_SUPPORTED);
}

mrapi_rmem_hndl_t mrapi_rmem_create(mrapi_rmem_id_t rmem_id, void *mem, mrapi_rmem_atype_t access_type,
    const mrapi_rmem_attributes_t *attributes, mrapi_uint_t size, mrapi_status_t *status)
{
    (void)rmem_id, (void)mem, (void)access_type, (void)attributes, (void)size;
    glue_say(status, MRAPI_ERR_NOT_SUPPORTED);
    return (mrapi_rmem_hndl_t){0};
}

mrapi_rmem_hndl_t mrapi_rmem_get(mrapi_rmem_id_t rmem_id, mrapi_rmem_atype_t access_type, mrapi_status_t *status)
{
    (void)rmem_id, (void)access_type;
    glue_say(status, MRAPI_ERR_NOT_SUPPORTED);
    return (mrapi_rmem_hndl_t){0};
}

void mrapi_rmem_attach(mrapi_rmem_hndl_t rmem, mrapi_rmem_atype_t access_type, mrapi_status_t *status)
{
    (void)rmem, (void)access_type;
    glue_say(status, MRAPI_ERR_NOT_SUPPORTED);
}

void mrapi_rmem_detach(mrapi_rmem_hndl_t rmem, mrapi_status_t *status)
{
    (void)rmem;
    glue_say(status, MRAPI_ERR_NOT_SUPPORTED);
}

void mrapi_rmem_delete(mrapi_rmem_hndl_t rmem, mrapi_status_t *status)
{
    (void)rmem;
    glue_say(status, MRAPI_ERR_NOT_SUPPORTED);
}

void mrapi_rmem_read(mrapi_rmem_hndl_t rmem, mrapi_uint32_t rmem_offset, void *local_buf, mrapi_uint32_t local_offset,
    mrapi_uint32_t bytes_per_access, mrapi_uint32_t num_strides, mrapi_uint32_t rmem_stride,
    mrapi_uint32_t local_stride, mrapi_status_t *status)
{
    (void)rmem, (void)rmem_offset, (void)local_buf, (void)local_offset, (void)bytes_per_access, (void)num_strides;
    (void)rmem_stride, (void)local_stride;
    glue_say(status, MRAPI_ERR_NOT_SUPPORTED);
}

void mrapi_rmem_write(mrapi_rmem_hndl_t rmem, mrapi_uint32_t rmem_offset, const void *local_buf,
    mrapi_uint32_t local_offset, mrapi_uint32_t bytes_per_access, mrapi_uint32_t num_strides,
    mrapi_uint32_t rmem_stride, mrapi_uint32_t local_stride, mrapi_status_t *status)
{
    (void)rmem, (void)rmem_offset, (void)local_buf, (void)local_offset, (void)bytes_per_access, (void)num_strides;
    (void)rmem_stride, (void)local_stride;
    glue_say(status, MRAPI_ERR_NOT_SUPPORTED);
}

mrapi_request_t mrapi_rmem_read_i(mrapi_rmem_hndl_t rmem, mrapi_uint32_t rmem_offset, void *local_buf,
    mrapi_uint32_t local_offset, mrapi_uint32_t bytes_per_access, mrapi_uint32_t num_strides,
    mrapi_uint32_t rmem_stride, mrapi_uint32_t local_stride, mrapi_status_t *status)
{
    (void)rmem, (void)rmem_offset, (void)local_buf, (void)local_offset, (void)bytes_per_access, (void)num_strides;
    (void)rmem_stride, (void)local_stride;
    glue_say(status, MRAPI_ERR_NOT_SUPPORTED);
    return (mrapi_request_t){0};
}

mrapi_request_t mrapi_rmem_write_i(mrapi_rmem_hndl_t rmem, mrapi_uint32_t rmem_offset, const void *local_buf,
    mrapi_uint32_t local_offset, mrapi_uint32_t bytes_per_access, mrapi_uint32_t num_strides,
    mrapi_uint32_t rmem_stride, mrapi_uint32_t local_stride, mrapi_status_t *status)
{
    (void)rmem, (void)rmem_offset, (void)local_buf, (void)local_offset, (void)bytes_per_access, (void)num_strides;
    (void)rmem_stride, (void)local_stride;
    glue_say(status, MRAPI_ERR_NOT_SUPPORTED);
    return (mrapi_request_t){0};
}

void mrapi_rmem_flush(mrapi_rmem_hndl_t rmem, mrapi_status_t *status)
{
    (void)rmem;
    glue_say(status, MRAPI_ERR_NOT_SUPPORTED);
}

void mrapi_rmem_sync(mrapi_rmem_hndl_t rmem, mrapi_status_t *status)
{
    (void)rmem;
    glue_say(status, MRAPI_ERR_NOT_SUPPORTED);
}

mrapi_boolean_t mrapi_test(const mrapi_request_t *request, size_t *size, mrapi_status_t *status)
{
    (void)request, (void)size;
    glue_say(status, MRAPI_ERR_NOT_SUPPORTED);
    return MRAPI_FALSE;
}

mrapi_boolean_t mrapi_wait(const mrapi_request_t *request, size_t *size, mrapi_timeout_t timeout,
    mrapi_status_t *status)
{
    (void)request, (void)size, (void)timeout;
    glue_say(status, MRAPI_ERR_NOT_SUPPORTED);
    return MRAPI_FALSE;
}

mrapi_uint_t mrapi_wait_any(size_t number, const mrapi_request_t *requests, size_t *size, mrapi_timeout_t timeout,
    mrapi_status_t *status)
{
    (void)number, (void)requests, (void)size, (void)timeout;
    glue_say(status, MRAPI_ERR_NOT_SUPPORTED);
    return 0;
}

void mrapi_cancel(const mrapi_request_t *request, mrapi_status_t *status)
{
    (void)request;
    glue_say(status, MRAPI_ERR_NOT_SUPPORTED);
}

mrapi_resource_t *mrapi_resources_get(mrapi_resource_filter_t subsystem_filter, mrapi_status_t *status)
{
    (void)subsystem_filter;
    glue_say(status, MRAPI_ERR_NOT_SUPPORTED);
    return MRAPI_NULL;
}

void mrapi_resource_get_attribute(const mrapi_resource_t *resource, mrapi_uint_t attribute_num, void *attribute_value,
    size_t attribute_size, mrapi_status_t *status)
{
    (void)resource, (void)attribute_num, (void)attribute_value, (void)attribute_size;
    glue_say(status, MRAPI_ERR_NOT_SUPPORTED);
}

void mrapi_dynamic_attribute_start(const mrapi_resource_t *resource, mrapi_uint_t attribute_num,
    mrapi_status_t *status)
{
    (void)resource, (void)attribute_num;
    glue_say(status, MRAPI_ERR_NOT_SUPPORTED);
}

void mrapi_dynamic_attribute_reset(const mrapi_resource_t *resource, mrapi_uint_t attribute_num,
    mrapi_status_t *status)
{
    (void)resource, (void)attribute_num;
    glue_say(status, MRAPI_ERR_NOT_SUPPORTED);
}

void mrapi_dynamic_attribute_stop(const mrapi_resource_t *resource, mrapi_uint_t attribute_num,
    mrapi_status_t *status)
{
    (void)resource, (void)attribute_num;
    glue_say(status, MRAPI_ERR_NOT_SUPPORTED);
}

void mrapi_resource_register_callback(mrapi_event_t event, mrapi_uint_t frequency, mrapi_callback_t callback_function,
    mrapi_status_t *status)
{
    (void)event, (void)frequency, (void)callback_function;
    glue_say(status, MRAPI_ERR_NOT_SUPPORTED);
}

void mrapi_resource_tree_free(mrapi_resource_t **root, mrapi_status_t *status)
{
    (void)root;
    glue_say(status, MRAPI_ERR_NOT_SUPPORTED);
}
