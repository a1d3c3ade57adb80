/* What the profile leaves out: attributes that change later, and those of groups. */
#include "glue.h"

void mtapi_action_set_attribute(mtapi_action_hndl_t action, mtapi_uint_t attribute_num, const void *attribute,
    mtapi_size_t attribute_size, mtapi_status_t *status)
{
    (void)action;
    (void)attribute_num;
    (void)attribute;
    (void)attribute_size;
    glue_say(status, MTAPI_ERR_FUNC_NOT_IMPLEMENTED);
}

void mtapi_queue_set_attribute(mtapi_queue_hndl_t queue, mtapi_uint_t attribute_num, const void *attribute,
    mtapi_size_t attribute_size, mtapi_status_t *status)
{
    (void)queue;
    (void)attribute_num;
    (void)attribute;
    (void)attribute_size;
    glue_say(status, MTAPI_ERR_FUNC_NOT_IMPLEMENTED);
}

void mtapi_groupattr_init(mtapi_group_attributes_t *attributes, mtapi_status_t *status)
{
    if (attributes) attributes->none = 0;
    glue_say(status, attributes ? MTAPI_SUCCESS : MTAPI_ERR_PARAMETER);
}

void mtapi_groupattr_set(mtapi_group_attributes_t *attributes, mtapi_uint_t attribute_num, const void *attribute,
    mtapi_size_t attribute_size, mtapi_status_t *status)
{
    (void)attributes;
    (void)attribute_num;
    (void)attribute;
    (void)attribute_size;
    glue_say(status, MTAPI_ERR_FUNC_NOT_IMPLEMENTED);
}

void mtapi_group_set_attribute(mtapi_group_hndl_t group, mtapi_uint_t attribute_num, const void *attribute,
    mtapi_size_t attribute_size, mtapi_status_t *status)
{
    (void)group;
    (void)attribute_num;
    (void)attribute;
    (void)attribute_size;
    glue_say(status, MTAPI_ERR_FUNC_NOT_IMPLEMENTED);
}

void mtapi_group_get_attribute(mtapi_group_hndl_t group, mtapi_uint_t attribute_num, void *attribute,
    mtapi_size_t attribute_size, mtapi_status_t *status)
{
    (void)group;
    (void)attribute_num;
    (void)attribute;
    (void)attribute_size;
    glue_say(status, MTAPI_ERR_FUNC_NOT_IMPLEMENTED);
}
