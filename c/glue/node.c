/* The node: how it begins with its workers and ends with them. */
#include "glue.h"
#include <sched.h>
#include <stdlib.h>

struct glue glue;

static void forget_records(void)
{
    for (uint32_t i = 0; i < CALLERS; i++) glue.caller[i] = (struct caller){0};
    for (uint32_t i = 0; i < MOST_WORKERS; i++) glue.worker[i] = (struct worker){0};
    for (uint32_t i = 0; i < MOST_ACTIONS; i++) glue.actions[i].handle = 0;
    for (uint32_t i = 0; i < MOST_GROUPS; i++) glue.groups[i].handle = 0;
    for (uint32_t i = 0; i < MOST_QUEUES; i++) glue.queues[i].handle = 0;
    for (uint32_t kind = 0; kind < KINDS; kind++)
        for (uint32_t i = 0; i < MOST_OBJECTS; i++) glue.objects[kind][i].handle = 0;
    glue.restricted = false;
    glue.closing = false;
    glue.next_id = UINT32_MAX - 1;
}

static uint32_t create_node(const mtapi_node_attributes_t *a)
{
    mtapi_c_settings settings = {a->num_cores, a->max_tasks, a->max_actions, a->max_groups, a->max_queues, a->max_objects,
        a->max_priorities, a->generations};
    uint32_t wrong;
    uint32_t code = mtapi_c_create(&glue.node, &settings, CALLERS, a->journal != 0, &wrong);
    if (code == MTAPI_C_MEMORY) return MTAPI_EXT_ERR_MEMORY;
    if (code != 0) return code;
    glue.tasks = calloc(a->max_tasks, sizeof *glue.tasks);
    if (!glue.tasks) {
        mtapi_c_discard(&glue.node);
        return MTAPI_EXT_ERR_MEMORY;
    }
    return 0;
}

static void discard_node(void)
{
    mtapi_c_discard(&glue.node);
    free(glue.tasks);
    glue.tasks = NULL;
    for (uint32_t i = 0; i < MOST_OBJECTS; i++) {
        free(glue.objects[SHMEM][i].memory);
        glue.objects[SHMEM][i].memory = NULL;
    }
    glue.state = NO_NODE;
}

/* The first so many workers have begun: they end, since the node closes. The lock is held, but while they do. */
static void end_workers(uint32_t begun)
{
    mtapi_c_close(&glue.node, glue.workers);
    glue.closing = true;
    glue_many_ended();
    glue_unlock();
    for (uint32_t i = 0; i < begun; i++) pthread_join(glue.worker[i].thread, NULL);
    glue_lock();
}

static uint32_t begin_workers(void)
{
    for (uint32_t i = 0; i < glue.workers; i++) {
        if (pthread_create(&glue.worker[i].thread, NULL, glue_serve, &glue.worker[i]) != 0) {
            end_workers(i);
            return MTAPI_ERR_NODE_INITFAILED;
        }
    }
    return 0;
}

static uint32_t open_node(void)
{
    uint32_t code = glue_sit_as_main();
    if (code == 0) code = mtapi_c_initialize(&glue.node, glue.workers);
    if (code == 0) code = mtapi_c_release(&glue.node, glue.workers);
    return code ? code : begin_workers();
}

uint32_t glue_make_node(const mtapi_node_attributes_t *attributes, mtapi_domain_t domain, mtapi_node_t number, bool by_mrapi)
{
    uint32_t code = glue_prepare_seats();
    if (code == 0) code = create_node(attributes);
    if (code != 0) return code;
    forget_records();
    glue.state = STARTING;
    glue.epoch++;
    glue.attributes = *attributes;
    glue.workers = attributes->num_cores;
    glue.domain = domain;
    glue.number = number;
    glue.for_mrapi = glue.by_mrapi = by_mrapi;
    code = open_node();
    if (code != 0) {
        discard_node();
        return code;
    }
    glue.state = STANDING;
    return 0;
}

static uint32_t write_journal(FILE *file)
{
    unsigned char piece[4096];
    size_t length, count;
    if (mtapi_c_journal(&glue.node, &length) != 0) return MTAPI_EXT_ERR_JOURNAL;
    for (size_t from = 0; from < length; from += count) {
        count = mtapi_c_journal_piece(&glue.node, from, piece, sizeof piece);
        if (count == 0 || fwrite(piece, 1, count, file) != count) return MTAPI_EXT_ERR_JOURNAL;
    }
    return 0;
}

/* Those who wait for what can't come any more look once more, and leave. */
static void let_waiters_leave(void)
{
    glue_wake_all();
    while (glue.waiters) {
        glue_unlock();
        sched_yield();
        glue_lock();
    }
}

uint32_t glue_end_node(FILE *journal)
{
    uint32_t code;
    glue.state = ENDING;
    end_workers(glue.workers);
    code = mtapi_c_final(&glue.node, glue.workers);
    let_waiters_leave();
    if (journal) {
        uint32_t written = write_journal(journal);
        if (code == 0) code = written;
    }
    discard_node();
    return code;
}

static uint32_t initialize(mtapi_domain_t domain, mtapi_node_t number, const mtapi_node_attributes_t *attributes)
{
    mtapi_node_attributes_t a;
    if (glue.state != NO_NODE) return MTAPI_ERR_NODE_INITIALIZED;
    if (attributes) a = *attributes;
    else glue_default_node(&a);
    return glue_make_node(&a, domain, number, false);
}

void mtapi_initialize(mtapi_domain_t domain_id, mtapi_node_t node_id, const mtapi_node_attributes_t *attributes,
    mtapi_info_t *mtapi_info, mtapi_status_t *status)
{
    glue_lock();
    uint32_t code = initialize(domain_id, node_id, attributes);
    if (code == 0 && mtapi_info) *mtapi_info = (mtapi_info_t){0x0100, 0, IMPLEMENTATION, 1, 1, glue.workers};
    glue_end(code, status);
}

/* An action can't: its worker would wait for itself. */
static uint32_t finalize(FILE *journal)
{
    if (glue.state != STANDING) return MTAPI_ERR_NODE_NOTINIT;
    if (glue_is_worker()) return MTAPI_EXT_ERR_DEADLOCK;
    return glue_end_node(journal);
}

void mtapi_finalize(mtapi_status_t *status)
{
    glue_lock();
    uint32_t code = finalize(NULL);
    glue_end(code, status);
}

void mtapi_ext_finalize(FILE *journal, mtapi_status_t *status)
{
    glue_lock();
    uint32_t code = finalize(journal);
    glue_end(code, status);
}

mtapi_domain_t mtapi_domain_id_get(mtapi_status_t *status)
{
    uint32_t who, code = glue_begin(&who);
    mtapi_domain_t domain = code ? 0 : glue.domain;
    glue_end(code, status);
    return domain;
}

mtapi_node_t mtapi_node_id_get(mtapi_status_t *status)
{
    uint32_t who, code = glue_begin(&who);
    mtapi_node_t number = code ? 0 : glue.number;
    glue_end(code, status);
    return number;
}
