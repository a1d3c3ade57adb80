/* Calls at random, by eight threads and by the actions of their tasks, of objects that are live, given up or none: each is
 * answered, no result is another task's, the node ends, and its journal is legal. */
#include "check.h"
#include <pthread.h>
#include <stdatomic.h>
#include <string.h>

enum { NODES = 6, THREADS = 8, CALLS = 250, PLACES = 16, JOBS = 3, MOST_STARTS = 4096 };

static _Thread_local unsigned seed;

static unsigned below(unsigned count)
{
    seed = seed * 1664525u + 1013904223u;
    return (seed >> 8) % count;
}

static mtapi_timeout_t some_milliseconds(void)
{
    return (mtapi_timeout_t)below(3);
}

/* Handles that the threads leave to one another. */
static _Atomic uint64_t tasks[PLACES], groups[PLACES], queues[PLACES], actions[PLACES], mutexes[PLACES], sems[PLACES], rwls[PLACES],
    segments[PLACES];

#define ANY_OF(places, type) ((type){atomic_load(&(places)[below(PLACES)])})

static void keep(_Atomic uint64_t *places, uint64_t handle)
{
    if (handle) atomic_store(&places[below(PLACES)], handle);
}

static void forget_all(void)
{
    _Atomic uint64_t *kinds[] = {tasks, groups, queues, actions, mutexes, sems, rwls, segments};
    for (unsigned kind = 0; kind < sizeof kinds / sizeof *kinds; kind++)
        for (int i = 0; i < PLACES; i++) atomic_store(&kinds[kind][i], 0);
}

/* A status with a name was told. */
static void check_answer(mtapi_status_t status)
{
    CHECK(strcmp(mtapi_ext_status_name(status), "?") != 0);
}

/* ---- tasks: each has a number, and gives the next one */

static mtapi_job_hndl_t jobs[JOBS];
static int numbers[MOST_STARTS], results[MOST_STARTS];
static atomic_uint started;

static mtapi_task_attributes_t some_attributes(void)
{
    mtapi_status_t status;
    mtapi_task_attributes_t attributes;
    mtapi_taskattr_init(&attributes, &status);
    OK;
    attributes.priority = below(5);
    attributes.is_detached = below(6) == 0;
    if (below(5) == 0) attributes.affinity = (mtapi_affinity_t)1 << below(4);
    return attributes;
}

static void start_one(void)
{
    mtapi_status_t status;
    mtapi_task_attributes_t attributes = some_attributes();
    mtapi_group_hndl_t group = below(3) ? ANY_OF(groups, mtapi_group_hndl_t) : MTAPI_GROUP_NONE;
    unsigned place = atomic_fetch_add(&started, 1);
    mtapi_task_hndl_t task;
    if (place >= MOST_STARTS) return;
    numbers[place] = (int)place;
    if (below(2))
        task = mtapi_task_start(MTAPI_TASK_ID_NONE, jobs[below(JOBS)], &numbers[place], sizeof(int), &results[place], sizeof(int),
            &attributes, group, &status);
    else
        task = mtapi_task_enqueue(MTAPI_TASK_ID_NONE, ANY_OF(queues, mtapi_queue_hndl_t), &numbers[place], sizeof(int), &results[place],
            sizeof(int), &attributes, group, &status);
    check_answer(status);
    keep(tasks, task.handle);
}

static void wait_for_task(void)
{
    mtapi_status_t status;
    mtapi_task_wait(ANY_OF(tasks, mtapi_task_hndl_t), some_milliseconds(), &status);
    check_answer(status);
}

static void cancel(void)
{
    mtapi_status_t status;
    mtapi_task_cancel(ANY_OF(tasks, mtapi_task_hndl_t), &status);
    check_answer(status);
}

/* ---- groups */

static void make_group(void)
{
    mtapi_status_t status;
    keep(groups, mtapi_group_create(MTAPI_GROUP_ID_NONE, MTAPI_DEFAULT_GROUP_ATTRIBUTES, &status).handle);
    check_answer(status);
}

static void delete_group(void)
{
    mtapi_status_t status;
    mtapi_group_delete(ANY_OF(groups, mtapi_group_hndl_t), &status);
    check_answer(status);
}

static void wait_for_all(void)
{
    mtapi_status_t status;
    mtapi_group_wait_all(ANY_OF(groups, mtapi_group_hndl_t), some_milliseconds(), &status);
    check_answer(status);
}

static void wait_for_any(void)
{
    mtapi_status_t status;
    void *result;
    mtapi_group_wait_any(ANY_OF(groups, mtapi_group_hndl_t), &result, some_milliseconds(), &status);
    check_answer(status);
    if (status == MTAPI_SUCCESS) CHECK(*(int *)result == (int)((int *)result - results) + 1);
}

/* ---- queues */

static void make_queue(void)
{
    mtapi_status_t status;
    mtapi_queue_attributes_t attributes;
    mtapi_queueattr_init(&attributes, &status);
    OK;
    attributes.ordered = below(2);
    attributes.retain = below(2);
    attributes.limit = 1 + below(5);
    attributes.priority = below(5);
    mtapi_queue_id_t id = below(2) ? MTAPI_QUEUE_ID_NONE : 1 + below(9);
    keep(queues, mtapi_queue_create(id, jobs[below(JOBS)], &attributes, &status).handle);
    check_answer(status);
}

static void change_queue(void)
{
    mtapi_status_t status;
    mtapi_queue_hndl_t queue = ANY_OF(queues, mtapi_queue_hndl_t);
    switch (below(5)) {
    case 0: mtapi_queue_delete(queue, some_milliseconds(), &status); break;
    case 1:
    case 2: mtapi_queue_disable(queue, some_milliseconds(), &status); break;
    default: mtapi_queue_enable(queue, &status); break;
    }
    check_answer(status);
}

/* ---- actions */

static void change_action(void)
{
    mtapi_status_t status;
    mtapi_action_hndl_t action = ANY_OF(actions, mtapi_action_hndl_t);
    switch (below(6)) {
    case 0: mtapi_action_delete(action, some_milliseconds(), &status); break;
    case 1: mtapi_action_disable(action, some_milliseconds(), &status); break;
    default: mtapi_action_enable(action, &status); break;
    }
    check_answer(status);
}

/* What an action does beside its work. */
static void do_beside(mtapi_task_context_t *context)
{
    mtapi_status_t status;
    switch (below(6)) {
    case 0: mtapi_context_status_set(context, MTAPI_ERR_ACTION_FAILED, &status); break;
    case 1: start_one(); return;
    case 2: wait_for_task(); return;
    case 3: change_action(); return;
    case 4: CHECK(mtapi_context_taskstate_get(context, &status) != 0); break;
    default: return;
    }
    OK;
}

ACTION(next_number)
{
    UNUSED;
    int number = *(const int *)arguments;
    CHECK(arguments_size == sizeof(int) && result_size == sizeof(int));
    seed += (unsigned)number;
    do_beside(context);
    *(int *)result = number + 1;
}

static void make_action(void)
{
    mtapi_status_t status;
    mtapi_action_attributes_t attributes;
    mtapi_actionattr_init(&attributes, &status);
    OK;
    if (below(4) == 0) attributes.affinity = (mtapi_affinity_t)1 << below(4);
    keep(actions, mtapi_action_create(1 + below(JOBS), next_number, MTAPI_NULL, 0, &attributes, &status).handle);
    check_answer(status);
}

/* ---- MRAPI: what is taken is given back */

static void use_mutex(void)
{
    mrapi_status_t status;
    mrapi_key_t key;
    mrapi_mutex_hndl_t mutex = ANY_OF(mutexes, mrapi_mutex_hndl_t);
    if (below(3) == 0) mrapi_mutex_delete(mutex, &status);
    if (below(2)) keep(mutexes, mrapi_mutex_create(below(2) ? MRAPI_MUTEX_ID_ANY : below(5), MRAPI_NULL, &status).handle);
    mrapi_mutex_lock(mutex, &key, below(3), &status);
    if (status != MRAPI_SUCCESS) return;
    mrapi_mutex_unlock(mutex, &key, &status);
    OK;
}

static void use_sem(void)
{
    mrapi_status_t status;
    mrapi_sem_hndl_t sem = ANY_OF(sems, mrapi_sem_hndl_t);
    if (below(3) == 0) mrapi_sem_delete(sem, &status);
    if (below(2)) keep(sems, mrapi_sem_create(MRAPI_SEM_ID_ANY, MRAPI_NULL, 1 + below(3), &status).handle);
    mrapi_sem_lock(sem, below(3), &status);
    if (status != MRAPI_SUCCESS) return;
    mrapi_sem_unlock(sem, &status);
    OK;
}

static void use_rwl(void)
{
    mrapi_status_t status;
    mrapi_rwl_mode_t mode = below(2) ? MRAPI_RWL_READER : MRAPI_RWL_WRITER;
    mrapi_rwl_hndl_t rwl = ANY_OF(rwls, mrapi_rwl_hndl_t);
    if (below(3) == 0) mrapi_rwl_delete(rwl, &status);
    if (below(2)) keep(rwls, mrapi_rwl_create(MRAPI_RWL_ID_ANY, MRAPI_NULL, 1 + below(3), &status).handle);
    mrapi_rwl_lock(rwl, mode, below(3), &status);
    if (status != MRAPI_SUCCESS) return;
    mrapi_rwl_unlock(rwl, mode, &status);
    OK;
}

static void use_segment(void)
{
    mrapi_status_t status;
    mrapi_shmem_hndl_t segment = ANY_OF(segments, mrapi_shmem_hndl_t);
    if (below(3) == 0) mrapi_shmem_delete(segment, &status);
    if (below(2)) keep(segments, mrapi_shmem_create(MRAPI_SHMEM_ID_ANY, 1 + below(64), NULL, 0, NULL, 0, &status).handle);
    CHECK((mrapi_shmem_attach(segment, &status) != NULL) == (status == MRAPI_SUCCESS));
    if (status != MRAPI_SUCCESS) return;
    mrapi_ext_shmem_write(segment, 0, below(9), &status);
    OK;
    CHECK(mrapi_ext_shmem_read(segment, 0, &status) < 9);
    OK;
    mrapi_shmem_detach(segment, &status);
    OK;
}

/* ---- the threads */

typedef void call(void);

static void *calls(void *place)
{
    static call *const any[] = {start_one, start_one, start_one, start_one, wait_for_task, wait_for_task, cancel, make_group,
        delete_group, wait_for_all, wait_for_any, wait_for_any, make_queue, change_queue, make_action, change_action, use_mutex, use_sem,
        use_rwl, use_segment};
    seed = *(unsigned *)place;
    for (int i = 0; i < CALLS; i++) any[below(sizeof any / sizeof *any)]();
    return NULL;
}

/* A node of which the calls soon reach the limits; in every second one a slot is used forty times at most. */
static mtapi_node_attributes_t narrow(unsigned node)
{
    mtapi_node_attributes_t attributes = settings(1 + node % 4);
    attributes.max_tasks = 60;
    attributes.max_actions = 10;
    attributes.max_groups = 12;
    attributes.max_queues = 6;
    attributes.max_objects = 4;
    if (node % 2) attributes.generations = 40;
    return attributes;
}

static void run(unsigned node)
{
    pthread_t threads[THREADS];
    unsigned seeds[THREADS];
    mtapi_status_t status;
    mtapi_node_attributes_t attributes = narrow(node);
    mtapi_initialize(1, 1, &attributes, MTAPI_NULL, &status);
    OK;
    forget_all();
    atomic_store(&started, 0);
    for (mtapi_job_id_t i = 0; i < JOBS; i++) jobs[i] = job_of(1 + i, next_number);
    for (unsigned i = 0; i < THREADS; i++) {
        seeds[i] = node * 7919 + i * 104729;
        CHECK(pthread_create(&threads[i], NULL, calls, &seeds[i]) == 0);
    }
    for (int i = 0; i < THREADS; i++) CHECK(pthread_join(threads[i], NULL) == 0);
    end("random");
}

int main(void)
{
    for (unsigned node = 0; node < NODES; node++) run(node);
    return 0;
}
