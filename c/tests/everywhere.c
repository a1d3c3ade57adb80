/* What every call that reaches the node is refused for: there is no node; nine others call already; and, of MRAPI, an action calls. */
#include "check.h"
#include <pthread.h>
#include <stdatomic.h>

enum { JOB = 1, FURTHER = 8 };

ACTION(nothing)
{
    UNUSED;
}

static void call_mtapi(mtapi_status_t wanted)
{
    mtapi_status_t status;
    mtapi_uint_t value;
    const mtapi_job_hndl_t job = {JOB};
    const mtapi_action_hndl_t action = {1};
    const mtapi_task_hndl_t task = {1};
    const mtapi_group_hndl_t group = {1};
    const mtapi_queue_hndl_t queue = {1};
    mtapi_domain_id_get(&status);
    WANT(wanted);
    mtapi_node_id_get(&status);
    WANT(wanted);
    mtapi_node_get_attribute(1, MTAPI_NODE_NUMCORES, &value, sizeof value, &status);
    WANT(wanted);
    CHECK(mtapi_action_create(JOB, nothing, NULL, 0, NULL, &status).handle == 0);
    WANT(wanted);
    mtapi_action_get_attribute(action, MTAPI_ACTION_GLOBAL, &value, sizeof value, &status);
    WANT(wanted);
    mtapi_action_delete(action, MTAPI_INFINITE, &status);
    WANT(wanted);
    mtapi_action_disable(action, MTAPI_INFINITE, &status);
    WANT(wanted);
    mtapi_action_enable(action, &status);
    WANT(wanted);
    CHECK(mtapi_job_get(JOB, 1, &status).handle == 0);
    WANT(wanted);
    CHECK(mtapi_task_start(1, job, NULL, 0, NULL, 0, NULL, MTAPI_GROUP_NONE, &status).handle == 0);
    WANT(wanted);
    CHECK(mtapi_task_enqueue(1, queue, NULL, 0, NULL, 0, NULL, MTAPI_GROUP_NONE, &status).handle == 0);
    WANT(wanted);
    mtapi_task_get_attribute(task, MTAPI_TASK_PRIORITY, &value, sizeof value, &status);
    WANT(wanted);
    mtapi_task_cancel(task, &status);
    WANT(wanted);
    mtapi_task_wait(task, MTAPI_INFINITE, &status);
    WANT(wanted);
    CHECK(mtapi_group_create(1, NULL, &status).handle == 0);
    WANT(wanted);
    mtapi_group_wait_all(group, MTAPI_INFINITE, &status);
    WANT(wanted);
    mtapi_group_wait_any(group, NULL, MTAPI_INFINITE, &status);
    WANT(wanted);
    mtapi_group_delete(group, &status);
    WANT(wanted);
    CHECK(mtapi_queue_create(1, job, NULL, &status).handle == 0);
    WANT(wanted);
    CHECK(mtapi_queue_get(1, 1, &status).handle == 0);
    WANT(wanted);
    mtapi_queue_get_attribute(queue, MTAPI_QUEUE_LIMIT, &value, sizeof value, &status);
    WANT(wanted);
    mtapi_queue_enable(queue, &status);
    WANT(wanted);
    mtapi_queue_disable(queue, MTAPI_INFINITE, &status);
    WANT(wanted);
    mtapi_queue_delete(queue, MTAPI_INFINITE, &status);
    WANT(wanted);
}

/* The calls that an action may not make either. */
static void call_mrapi(mrapi_status_t wanted)
{
    mrapi_status_t status;
    mrapi_key_t key = 1;
    const mrapi_mutex_hndl_t mutex = {1};
    const mrapi_sem_hndl_t sem = {1};
    const mrapi_rwl_hndl_t rwl = {1};
    const mrapi_shmem_hndl_t shmem = {1};
    CHECK(mrapi_mutex_create(1, NULL, &status).handle == 0);
    WANT(wanted);
    CHECK(mrapi_mutex_get(1, &status).handle == 0);
    WANT(wanted);
    mrapi_mutex_lock(mutex, &key, MRAPI_TIMEOUT_INFINITE, &status);
    WANT(wanted);
    CHECK(!mrapi_mutex_trylock(mutex, &key, &status));
    WANT(wanted);
    mrapi_mutex_unlock(mutex, &key, &status);
    WANT(wanted);
    mrapi_mutex_delete(mutex, &status);
    WANT(wanted);
    CHECK(mrapi_sem_create(1, NULL, 1, &status).handle == 0);
    WANT(wanted);
    CHECK(mrapi_sem_get(1, &status).handle == 0);
    WANT(wanted);
    mrapi_sem_lock(sem, MRAPI_TIMEOUT_INFINITE, &status);
    WANT(wanted);
    CHECK(!mrapi_sem_trylock(sem, &status));
    WANT(wanted);
    mrapi_sem_unlock(sem, &status);
    WANT(wanted);
    mrapi_sem_delete(sem, &status);
    WANT(wanted);
    CHECK(mrapi_rwl_create(1, NULL, 1, &status).handle == 0);
    WANT(wanted);
    CHECK(mrapi_rwl_get(1, &status).handle == 0);
    WANT(wanted);
    mrapi_rwl_lock(rwl, MRAPI_RWL_WRITER, MRAPI_TIMEOUT_INFINITE, &status);
    WANT(wanted);
    CHECK(!mrapi_rwl_trylock(rwl, MRAPI_RWL_READER, &status));
    WANT(wanted);
    mrapi_rwl_unlock(rwl, MRAPI_RWL_WRITER, &status);
    WANT(wanted);
    mrapi_rwl_delete(rwl, &status);
    WANT(wanted);
    CHECK(mrapi_shmem_create(1, 8, NULL, 0, NULL, 0, &status).handle == 0);
    WANT(wanted);
    CHECK(mrapi_shmem_get(1, &status).handle == 0);
    WANT(wanted);
    CHECK(!mrapi_shmem_attach(shmem, &status));
    WANT(wanted);
    mrapi_ext_shmem_attach(shmem, &status);
    WANT(wanted);
    CHECK(mrapi_ext_shmem_read(shmem, 0, &status) == 0);
    WANT(wanted);
    mrapi_ext_shmem_write(shmem, 0, 1, &status);
    WANT(wanted);
    mrapi_shmem_detach(shmem, &status);
    WANT(wanted);
    mrapi_shmem_delete(shmem, &status);
    WANT(wanted);
}

static void ask_mrapi(mrapi_status_t wanted)
{
    mrapi_status_t status;
    mrapi_uint_t value;
    mrapi_domain_id_get(&status);
    WANT(wanted);
    mrapi_node_id_get(&status);
    WANT(wanted);
    mrapi_mutex_get_attribute((mrapi_mutex_hndl_t){1}, MRAPI_ERROR_EXT, &value, sizeof value, &status);
    WANT(wanted);
    mrapi_sem_get_attribute((mrapi_sem_hndl_t){1}, MRAPI_ERROR_EXT, &value, sizeof value, &status);
    WANT(wanted);
    mrapi_rwl_get_attribute((mrapi_rwl_hndl_t){1}, MRAPI_ERROR_EXT, &value, sizeof value, &status);
    WANT(wanted);
    mrapi_shmem_get_attribute((mrapi_shmem_hndl_t){1}, MRAPI_ERROR_EXT, &value, sizeof value, &status);
    WANT(wanted);
}

static void without_a_node(void)
{
    call_mtapi(MTAPI_ERR_NODE_NOTINIT);
    call_mrapi(MRAPI_ERR_NODE_NOTINIT);
    ask_mrapi(MRAPI_ERR_NODE_NOTINIT);
}

static pthread_barrier_t barrier;

static void *takes_a_seat(void *unused)
{
    mtapi_status_t status;
    mtapi_node_id_get(&status);
    OK;
    pthread_barrier_wait(&barrier);
    pthread_barrier_wait(&barrier);
    return unused;
}

static void *tenth(void *unused)
{
    call_mtapi(MTAPI_EXT_ERR_CALLER_LIMIT);
    call_mrapi(MRAPI_EXT_ERR_CALLER_LIMIT);
    ask_mrapi(MRAPI_EXT_ERR_CALLER_LIMIT);
    return unused;
}

static void by_a_tenth(void)
{
    pthread_t threads[FURTHER], last;
    begin(1);
    pthread_barrier_init(&barrier, NULL, FURTHER + 1);
    for (int i = 0; i < FURTHER; i++) CHECK(pthread_create(&threads[i], NULL, takes_a_seat, NULL) == 0);
    pthread_barrier_wait(&barrier);
    CHECK(pthread_create(&last, NULL, tenth, NULL) == 0);
    CHECK(pthread_join(last, NULL) == 0);
    pthread_barrier_wait(&barrier);
    for (int i = 0; i < FURTHER; i++) CHECK(pthread_join(threads[i], NULL) == 0);
    pthread_barrier_destroy(&barrier);
    end("by_a_tenth");
}

static atomic_int called;

ACTION(calls_mrapi)
{
    UNUSED;
    call_mrapi(MRAPI_ERR_PARAMETER);
    atomic_store(&called, 1);
}

static void by_an_action(void)
{
    mtapi_status_t status;
    begin(1);
    mtapi_task_wait(start(job_of(JOB, calls_mrapi), NULL, 0, NULL, 0), MTAPI_INFINITE, &status);
    OK;
    CHECK(atomic_load(&called));
    end("by_an_action");
}

int main(void)
{
    without_a_node();
    by_a_tenth();
    by_an_action();
    without_a_node();
    return 0;
}
