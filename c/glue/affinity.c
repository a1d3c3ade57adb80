/* Sets of cores. */
#include "glue.h"

enum { CORES = 64 };

void mtapi_affinity_init(mtapi_affinity_t *mask, mtapi_boolean_t affinity, mtapi_status_t *status)
{
    if (mask) *mask = affinity ? ~(mtapi_affinity_t)0 : 0;
    glue_say(status, mask ? MTAPI_SUCCESS : MTAPI_ERR_PARAMETER);
}

static uint32_t check(const mtapi_affinity_t *mask, mtapi_uint_t core)
{
    if (!mask) return MTAPI_ERR_PARAMETER;
    return core < CORES ? MTAPI_SUCCESS : MTAPI_ERR_CORE_NUM;
}

void mtapi_affinity_set(mtapi_affinity_t *mask, mtapi_uint_t core_num, mtapi_boolean_t affinity, mtapi_status_t *status)
{
    uint32_t code = check(mask, core_num);
    if (code == 0) {
        mtapi_affinity_t bit = (mtapi_affinity_t)1 << core_num;
        *mask = affinity ? *mask | bit : *mask & ~bit;
    }
    glue_say(status, code);
}

mtapi_boolean_t mtapi_affinity_get(const mtapi_affinity_t *mask, mtapi_uint_t core_num, mtapi_status_t *status)
{
    uint32_t code = check(mask, core_num);
    glue_say(status, code);
    return code ? MTAPI_FALSE : (mtapi_boolean_t)(*mask >> core_num & 1);
}
