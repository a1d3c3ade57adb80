/* MRAPI's part of the node: one node serves both interfaces. */
#include "resources.h"
#include <string.h>

static uint32_t initialize(mrapi_domain_t domain, mrapi_node_t number)
{
    mtapi_node_attributes_t attributes;
    if (glue.state == STANDING && !glue.for_mrapi) {
        glue.for_mrapi = true;
        return 0;
    }
    if (glue.state != NO_NODE) return MTAPI_ERR_NODE_INITIALIZED;
    glue_default_node(&attributes);
    return glue_make_node(&attributes, domain, number, true);
}

void mrapi_initialize(mrapi_domain_t domain_id, mrapi_node_t node_id, mrapi_parameters_t init_parameters,
    mrapi_info_t *mrapi_info, mrapi_status_t *status)
{
    (void)init_parameters;
    glue_lock();
    uint32_t code = initialize(domain_id, node_id);
    if (code == 0 && mrapi_info) *mrapi_info = (mrapi_info_t){0x0100, 0, IMPLEMENTATION, 1, 1};
    glue_end_mrapi(code, status);
}

static uint32_t finalize(void)
{
    if (glue.state != STANDING || !glue.for_mrapi) return MTAPI_ERR_NODE_NOTINIT;
    if (glue_is_worker()) return MTAPI_EXT_ERR_DEADLOCK;
    glue.for_mrapi = false;
    return glue.by_mrapi ? glue_end_node(NULL) : 0;
}

void mrapi_finalize(mrapi_status_t *status)
{
    glue_lock();
    uint32_t code = finalize();
    glue_end_mrapi(code, status);
}

mrapi_domain_t mrapi_domain_id_get(mrapi_status_t *status)
{
    uint32_t who, code = glue_begin(&who);
    mrapi_domain_t domain = code ? 0 : glue.domain;
    glue_end_mrapi(code, status);
    return domain;
}

mrapi_node_t mrapi_node_id_get(mrapi_status_t *status)
{
    uint32_t who, code = glue_begin(&who);
    mrapi_node_t number = code ? 0 : glue.number;
    glue_end_mrapi(code, status);
    return number;
}

char *mrapi_display_status(mrapi_status_t status, char *message, size_t size)
{
    const char *name = glue_mrapi_name(status);
    if (!message || strlen(name) >= size) return NULL;
    return strcpy(message, name);
}
