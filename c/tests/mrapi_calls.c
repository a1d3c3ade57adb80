/* Each call of MRAPI with its plain answer, and each of its refusals. */
#include "check.h"
#include <pthread.h>
#include <stdatomic.h>
#include <string.h>

/* A node with room for two objects of each kind. */
static void begin_small(void)
{
    mtapi_status_t status;
    mtapi_node_attributes_t attributes = settings(1);
    attributes.max_objects = 2;
    mtapi_initialize(1, 1, &attributes, NULL, &status);
    OK;
}

/* Does something as another caller, and waits for its end. */
static void as_another(void *(*function)(void *), void *argument)
{
    pthread_t thread;
    CHECK(pthread_create(&thread, NULL, function, argument) == 0);
    CHECK(pthread_join(thread, NULL) == 0);
}

static void without_a_node(void)
{
    mrapi_status_t status;
    mrapi_key_t key = 1;
    mrapi_mutex_hndl_t mutex = {1};
    mrapi_sem_hndl_t sem = {1};
    mrapi_rwl_hndl_t rwl = {1};
    mrapi_shmem_hndl_t shmem = {1};
    mrapi_finalize(&status);
    WANT(MRAPI_ERR_NODE_NOTINIT);
    mrapi_domain_id_get(&status);
    WANT(MRAPI_ERR_NODE_NOTINIT);
    mrapi_node_id_get(&status);
    WANT(MRAPI_ERR_NODE_NOTINIT);
    mrapi_mutex_create(1, NULL, &status);
    WANT(MRAPI_ERR_NODE_NOTINIT);
    mrapi_mutex_get(1, &status);
    WANT(MRAPI_ERR_NODE_NOTINIT);
    mrapi_mutex_get_attribute(mutex, MRAPI_MUTEX_RECURSIVE, &key, sizeof key, &status);
    WANT(MRAPI_ERR_NODE_NOTINIT);
    mrapi_mutex_lock(mutex, &key, MRAPI_TIMEOUT_INFINITE, &status);
    WANT(MRAPI_ERR_NODE_NOTINIT);
    mrapi_mutex_trylock(mutex, &key, &status);
    WANT(MRAPI_ERR_NODE_NOTINIT);
    mrapi_mutex_unlock(mutex, &key, &status);
    WANT(MRAPI_ERR_NODE_NOTINIT);
    mrapi_mutex_delete(mutex, &status);
    WANT(MRAPI_ERR_NODE_NOTINIT);
    mrapi_sem_create(1, NULL, 1, &status);
    WANT(MRAPI_ERR_NODE_NOTINIT);
    mrapi_sem_lock(sem, MRAPI_TIMEOUT_INFINITE, &status);
    WANT(MRAPI_ERR_NODE_NOTINIT);
    mrapi_rwl_lock(rwl, MRAPI_RWL_READER, MRAPI_TIMEOUT_INFINITE, &status);
    WANT(MRAPI_ERR_NODE_NOTINIT);
    CHECK(!mrapi_shmem_attach(shmem, &status));
    WANT(MRAPI_ERR_NODE_NOTINIT);
    mrapi_ext_shmem_attach(shmem, &status);
    WANT(MRAPI_ERR_NODE_NOTINIT);
    mrapi_ext_shmem_read(shmem, 0, &status);
    WANT(MRAPI_ERR_NODE_NOTINIT);
    mrapi_finalize(NULL);
}

/* One node for both interfaces. */
static void nodes(void)
{
    mrapi_status_t status;
    mrapi_info_t info;
    char message[40];
    mrapi_initialize(3, 4, MRAPI_NULL, &info, &status);
    OK;
    CHECK(info.mrapi_version == 0x0100 && info.number_of_domains == 1 && info.number_of_nodes == 1);
    CHECK(mrapi_domain_id_get(&status) == 3);
    OK;
    CHECK(mrapi_node_id_get(&status) == 4);
    OK;
    mrapi_initialize(3, 4, MRAPI_NULL, MRAPI_NULL, &status);
    WANT(MRAPI_ERR_NODE_INITIALIZED);
    mtapi_initialize(3, 4, MTAPI_NULL, MTAPI_NULL, &status);
    WANT(MTAPI_ERR_NODE_INITIALIZED);
    mrapi_finalize(&status);
    OK;
    begin(1);
    mrapi_initialize(3, 4, MRAPI_NULL, MRAPI_NULL, &status);
    OK;
    mrapi_finalize(&status);
    OK;
    mrapi_finalize(&status);
    WANT(MRAPI_ERR_NODE_NOTINIT);
    CHECK(mrapi_mutex_create(1, NULL, &status).handle != 0); /* the node stands on */
    OK;
    mrapi_initialize(3, 4, MRAPI_NULL, MRAPI_NULL, &status);
    OK;
    end("nodes_of_both");
    mrapi_finalize(&status); /* it has ended for both */
    WANT(MRAPI_ERR_NODE_NOTINIT);
    CHECK(mrapi_display_status(MRAPI_ERR_SEM_LOCKED, message, sizeof message) == message);
    CHECK(strcmp(message, "MRAPI_ERR_SEM_LOCKED") == 0);
    CHECK(!mrapi_display_status(MRAPI_ERR_SEM_LOCKED, message, 20));
    CHECK(strcmp(mrapi_display_status(MRAPI_ERR_RWL_DELETED, message, sizeof message), "MRAPI_ERR_RWL_DELETED") == 0);
    CHECK(mrapi_display_status(MRAPI_ERR_SEM_LOCKED, message, 21));
}

static void *tries_mutex(void *place)
{
    mrapi_status_t status;
    mrapi_key_t key = 1;
    mrapi_mutex_hndl_t mutex = *(mrapi_mutex_hndl_t *)place;
    double begun = seconds();
    CHECK(mrapi_mutex_trylock(mutex, &key, &status) == MRAPI_FALSE);
    WANT(MRAPI_TIMEOUT);
    mrapi_mutex_lock(mutex, &key, 30, &status);
    WANT(MRAPI_TIMEOUT);
    CHECK(seconds() - begun >= 0.03);
    mrapi_mutex_unlock(mutex, &key, &status);
    WANT(MRAPI_ERR_MUTEX_NOTLOCKED);
    mrapi_mutex_delete(mutex, &status);
    WANT(MRAPI_ERR_MUTEX_LOCKED);
    return NULL;
}

static void mutexes(void)
{
    mrapi_status_t status;
    mrapi_mutex_attributes_t attributes;
    mrapi_boolean_t value = MRAPI_TRUE;
    mrapi_key_t keys[64], key, none = 0, above = 3;
    begin_small();
    mrapi_mutex_init_attributes(&attributes, &status);
    OK;
    mrapi_mutex_set_attribute(&attributes, MRAPI_MUTEX_RECURSIVE, &value, sizeof value, &status);
    OK;
    mrapi_mutex_hndl_t deep = mrapi_mutex_create(5, &attributes, &status);
    OK;
    mrapi_mutex_hndl_t plain = mrapi_mutex_create(MRAPI_MUTEX_ID_ANY, MRAPI_NULL, &status);
    OK;
    mrapi_mutex_create(5, MRAPI_NULL, &status);
    WANT(MRAPI_ERR_MUTEX_EXISTS);
    mrapi_mutex_create(6, MRAPI_NULL, &status);
    WANT(MRAPI_ERR_MUTEX_LIMIT);
    CHECK(mrapi_mutex_get(5, &status).handle == deep.handle);
    OK;
    mrapi_mutex_get(6, &status);
    WANT(MRAPI_ERR_MUTEX_ID_INVALID);
    for (unsigned i = 0; i < 64; i++) {
        mrapi_mutex_lock(deep, &keys[i], MRAPI_TIMEOUT_INFINITE, &status);
        OK;
        CHECK(keys[i] == i + 1);
    }
    CHECK(mrapi_mutex_trylock(deep, &key, &status) == MRAPI_FALSE);
    WANT(MRAPI_ERR_MUTEX_LOCKED);
    mrapi_mutex_unlock(deep, &keys[3], &status);
    WANT(MRAPI_ERR_MUTEX_LOCKORDER);
    mrapi_mutex_unlock(deep, &none, &status);
    WANT(MRAPI_ERR_MUTEX_KEY);
    for (int i = 63; i >= 0; i--) {
        mrapi_mutex_unlock(deep, &keys[i], &status);
        OK;
    }
    CHECK(mrapi_mutex_trylock(plain, &key, &status) == MRAPI_TRUE);
    OK;
    mrapi_mutex_lock(plain, &key, MRAPI_TIMEOUT_INFINITE, &status);
    WANT(MRAPI_ERR_MUTEX_LOCKED);
    mrapi_mutex_unlock(plain, &above, &status);
    WANT(MRAPI_ERR_MUTEX_KEY);
    mrapi_mutex_lock(plain, MRAPI_NULL, MRAPI_TIMEOUT_INFINITE, &status);
    WANT(MRAPI_ERR_PARAMETER);
    mrapi_mutex_unlock(plain, MRAPI_NULL, &status);
    WANT(MRAPI_ERR_PARAMETER);
    as_another(tries_mutex, &plain);
    mrapi_mutex_unlock(plain, &key, &status);
    OK;
    mrapi_mutex_delete(plain, &status);
    OK;
    mrapi_mutex_hndl_t wrong[3] = {plain, FOREIGN(mrapi_mutex_hndl_t), {0}};
    for (int i = 0; i < 3; i++) {
        mrapi_mutex_lock(wrong[i], &key, MRAPI_TIMEOUT_INFINITE, &status);
        WANT(MRAPI_ERR_MUTEX_INVALID);
        CHECK(!mrapi_mutex_trylock(wrong[i], &key, &status));
        WANT(MRAPI_ERR_MUTEX_INVALID);
        mrapi_mutex_unlock(wrong[i], &key, &status);
        WANT(MRAPI_ERR_MUTEX_INVALID);
        mrapi_mutex_delete(wrong[i], &status);
        WANT(MRAPI_ERR_MUTEX_INVALID);
        mrapi_mutex_get_attribute(wrong[i], MRAPI_MUTEX_RECURSIVE, &value, sizeof value, &status);
        WANT(MRAPI_ERR_MUTEX_INVALID);
    }
    end("mutexes");
}

static void attributes(void)
{
    mrapi_status_t status;
    mrapi_mutex_attributes_t of_mutex;
    mrapi_sem_attributes_t of_sem;
    mrapi_rwl_attributes_t of_rwl;
    mrapi_shmem_attributes_t of_shmem;
    mrapi_uint_t value = 2;
    begin_small();
    mrapi_mutex_init_attributes(NULL, &status);
    WANT(MRAPI_ERR_PARAMETER);
    mrapi_mutex_init_attributes(&of_mutex, &status);
    OK;
    mrapi_mutex_set_attribute(NULL, MRAPI_MUTEX_RECURSIVE, &value, sizeof value, &status);
    WANT(MRAPI_ERR_PARAMETER);
    mrapi_mutex_set_attribute(&of_mutex, MRAPI_MUTEX_RECURSIVE, &value, sizeof value, &status);
    WANT(MRAPI_ERR_PARAMETER);
    mrapi_mutex_set_attribute(&of_mutex, MRAPI_MUTEX_RECURSIVE, &value, 1, &status);
    WANT(MRAPI_ERR_ATTR_SIZE);
    mrapi_mutex_set_attribute(&of_mutex, MRAPI_MUTEX_RECURSIVE, NULL, sizeof value, &status);
    WANT(MRAPI_ERR_PARAMETER);
    mrapi_mutex_set_attribute(&of_mutex, MRAPI_ERROR_EXT, &value, sizeof value, &status);
    WANT(MRAPI_ERR_ATTR_READONLY);
    mrapi_mutex_set_attribute(&of_mutex, 9, &value, sizeof value, &status);
    WANT(MRAPI_ERR_ATTR_NUM);
    mrapi_mutex_hndl_t mutex = mrapi_mutex_create(1, &of_mutex, &status);
    OK;
    mrapi_mutex_get_attribute(mutex, MRAPI_MUTEX_RECURSIVE, &value, sizeof value, &status);
    OK;
    CHECK(value == MRAPI_FALSE);
    mrapi_mutex_get_attribute(mutex, MRAPI_ERROR_EXT, &value, sizeof value, &status);
    OK;
    CHECK(value == MRAPI_TRUE);
    mrapi_mutex_get_attribute(mutex, MRAPI_DOMAIN_SHARED, &value, sizeof value, &status);
    OK;
    CHECK(value == MRAPI_FALSE);
    mrapi_mutex_get_attribute(mutex, 9, &value, sizeof value, &status);
    WANT(MRAPI_ERR_ATTR_NUM);
    mrapi_mutex_get_attribute(mutex, MRAPI_ERROR_EXT, &value, 1, &status);
    WANT(MRAPI_ERR_ATTR_SIZE);
    mrapi_mutex_get_attribute(mutex, MRAPI_ERROR_EXT, NULL, sizeof value, &status);
    WANT(MRAPI_ERR_PARAMETER);
    mrapi_sem_init_attributes(NULL, &status);
    WANT(MRAPI_ERR_PARAMETER);
    mrapi_sem_init_attributes(&of_sem, &status);
    OK;
    mrapi_sem_set_attribute(&of_sem, MRAPI_MUTEX_RECURSIVE, &value, sizeof value, &status);
    WANT(MRAPI_ERR_ATTR_NUM);
    mrapi_sem_hndl_t sem = mrapi_sem_create(1, &of_sem, 1, &status);
    OK;
    mrapi_sem_get_attribute(sem, MRAPI_ERROR_EXT, &value, sizeof value, &status);
    OK;
    mrapi_sem_get_attribute(sem, MRAPI_MUTEX_RECURSIVE, &value, sizeof value, &status);
    WANT(MRAPI_ERR_ATTR_NUM);
    mrapi_rwl_init_attributes(NULL, &status);
    WANT(MRAPI_ERR_PARAMETER);
    mrapi_rwl_init_attributes(&of_rwl, &status);
    OK;
    mrapi_rwl_set_attribute(&of_rwl, MRAPI_DOMAIN_SHARED, &value, sizeof value, &status);
    WANT(MRAPI_ERR_ATTR_READONLY);
    mrapi_rwl_hndl_t rwl = mrapi_rwl_create(1, &of_rwl, 1, &status);
    OK;
    mrapi_rwl_get_attribute(rwl, MRAPI_DOMAIN_SHARED, &value, sizeof value, &status);
    OK;
    mrapi_shmem_init_attributes(NULL, &status);
    WANT(MRAPI_ERR_PARAMETER);
    mrapi_shmem_init_attributes(&of_shmem, &status);
    OK;
    mrapi_shmem_set_attribute(&of_shmem, MRAPI_DOMAIN_SHARED, &value, sizeof value, &status);
    WANT(MRAPI_ERR_ATTR_READONLY);
    mrapi_shmem_hndl_t shmem = mrapi_shmem_create(1, 8, NULL, 0, &of_shmem, sizeof of_shmem, &status);
    OK;
    mrapi_shmem_get_attribute(shmem, MRAPI_DOMAIN_SHARED, &value, sizeof value, &status);
    OK;
    mrapi_shmem_get_attribute(FOREIGN(mrapi_shmem_hndl_t), MRAPI_DOMAIN_SHARED, &value, sizeof value, &status);
    WANT(MRAPI_ERR_SHM_INVALID);
    mrapi_sem_set_attribute(&of_sem, MRAPI_ERROR_EXT, &value, sizeof value, &status);
    WANT(MRAPI_ERR_ATTR_READONLY);
    mrapi_sem_set_attribute(&of_sem, 9, &value, sizeof value, &status);
    WANT(MRAPI_ERR_ATTR_NUM);
    mrapi_sem_get_attribute(sem, 9, &value, sizeof value, &status);
    WANT(MRAPI_ERR_ATTR_NUM);
    mrapi_sem_get_attribute(sem, MRAPI_ERROR_EXT, &value, 1, &status);
    WANT(MRAPI_ERR_ATTR_SIZE);
    mrapi_sem_get_attribute(sem, MRAPI_ERROR_EXT, NULL, sizeof value, &status);
    WANT(MRAPI_ERR_PARAMETER);
    mrapi_rwl_set_attribute(&of_rwl, MRAPI_ERROR_EXT, &value, sizeof value, &status);
    WANT(MRAPI_ERR_ATTR_READONLY);
    mrapi_rwl_set_attribute(&of_rwl, 9, &value, sizeof value, &status);
    WANT(MRAPI_ERR_ATTR_NUM);
    mrapi_rwl_get_attribute(rwl, 9, &value, sizeof value, &status);
    WANT(MRAPI_ERR_ATTR_NUM);
    mrapi_rwl_get_attribute(rwl, MRAPI_ERROR_EXT, &value, 1, &status);
    WANT(MRAPI_ERR_ATTR_SIZE);
    mrapi_rwl_get_attribute(rwl, MRAPI_ERROR_EXT, NULL, sizeof value, &status);
    WANT(MRAPI_ERR_PARAMETER);
    mrapi_shmem_set_attribute(&of_shmem, MRAPI_ERROR_EXT, &value, sizeof value, &status);
    WANT(MRAPI_ERR_ATTR_READONLY);
    mrapi_shmem_set_attribute(&of_shmem, 9, &value, sizeof value, &status);
    WANT(MRAPI_ERR_ATTR_NUM);
    mrapi_shmem_get_attribute(shmem, 9, &value, sizeof value, &status);
    WANT(MRAPI_ERR_ATTR_NUM);
    mrapi_shmem_get_attribute(shmem, MRAPI_ERROR_EXT, &value, 1, &status);
    WANT(MRAPI_ERR_ATTR_SIZE);
    mrapi_shmem_get_attribute(shmem, MRAPI_ERROR_EXT, NULL, sizeof value, &status);
    WANT(MRAPI_ERR_PARAMETER);
    end("attributes");
}

static void *tries_sem(void *place)
{
    mrapi_status_t status;
    mrapi_sem_hndl_t sem = *(mrapi_sem_hndl_t *)place;
    CHECK(mrapi_sem_trylock(sem, &status) == MRAPI_FALSE);
    WANT(MRAPI_TIMEOUT);
    mrapi_sem_lock(sem, 10, &status);
    WANT(MRAPI_TIMEOUT);
    mrapi_sem_unlock(sem, &status);
    WANT(MRAPI_ERR_SEM_NOTLOCKED);
    return NULL;
}

static void semaphores(void)
{
    mrapi_status_t status;
    begin_small();
    mrapi_sem_create(1, NULL, 0, &status);
    WANT(MRAPI_ERR_PARAMETER);
    mrapi_sem_create(1, NULL, 65536, &status);
    WANT(MRAPI_ERR_PARAMETER);
    mrapi_sem_hndl_t sem = mrapi_sem_create(1, NULL, 2, &status), gone;
    OK;
    mrapi_sem_create(1, NULL, 2, &status);
    WANT(MRAPI_ERR_SEM_EXISTS);
    gone = mrapi_sem_create(MRAPI_SEM_ID_ANY, NULL, 2, &status);
    OK;
    mrapi_sem_create(MRAPI_SEM_ID_ANY, NULL, 2, &status);
    WANT(MRAPI_ERR_SEM_LIMIT);
    CHECK(mrapi_sem_get(1, &status).handle == sem.handle);
    OK;
    mrapi_sem_get(2, &status);
    WANT(MRAPI_ERR_SEM_ID_INVALID);
    mrapi_sem_lock(sem, MRAPI_TIMEOUT_INFINITE, &status);
    OK;
    CHECK(mrapi_sem_trylock(sem, &status) == MRAPI_TRUE);
    OK;
    CHECK(mrapi_sem_trylock(sem, &status) == MRAPI_FALSE);
    WANT(MRAPI_TIMEOUT);
    as_another(tries_sem, &sem);
    mrapi_sem_delete(sem, &status);
    WANT(MRAPI_ERR_SEM_LOCKED);
    mrapi_sem_unlock(sem, &status);
    OK;
    mrapi_sem_unlock(sem, &status);
    OK;
    mrapi_sem_unlock(sem, &status);
    WANT(MRAPI_ERR_SEM_NOTLOCKED);
    mrapi_sem_delete(gone, &status);
    OK;
    mrapi_sem_hndl_t wrong[3] = {gone, FOREIGN(mrapi_sem_hndl_t), {0}};
    for (int i = 0; i < 3; i++) {
        mrapi_uint_t value;
        mrapi_sem_lock(wrong[i], MRAPI_TIMEOUT_INFINITE, &status);
        WANT(MRAPI_ERR_SEM_INVALID);
        CHECK(!mrapi_sem_trylock(wrong[i], &status));
        WANT(MRAPI_ERR_SEM_INVALID);
        mrapi_sem_unlock(wrong[i], &status);
        WANT(MRAPI_ERR_SEM_INVALID);
        mrapi_sem_delete(wrong[i], &status);
        WANT(MRAPI_ERR_SEM_INVALID);
        mrapi_sem_get_attribute(wrong[i], MRAPI_ERROR_EXT, &value, sizeof value, &status);
        WANT(MRAPI_ERR_SEM_INVALID);
    }
    end("semaphores");
}

static void *reads_too(void *place)
{
    mrapi_status_t status;
    mrapi_rwl_hndl_t rwl = *(mrapi_rwl_hndl_t *)place;
    CHECK(mrapi_rwl_trylock(rwl, MRAPI_RWL_WRITER, &status) == MRAPI_FALSE);
    WANT(MRAPI_TIMEOUT);
    CHECK(mrapi_rwl_trylock(rwl, MRAPI_RWL_READER, &status) == MRAPI_TRUE);
    OK;
    mrapi_rwl_unlock(rwl, MRAPI_RWL_READER, &status);
    OK;
    mrapi_rwl_delete(rwl, &status);
    WANT(MRAPI_ERR_RWL_LOCKED);
    return NULL;
}

static void *waits_to_read(void *place)
{
    mrapi_status_t status;
    mrapi_rwl_hndl_t rwl = *(mrapi_rwl_hndl_t *)place;
    mrapi_rwl_lock(rwl, MRAPI_RWL_READER, 10, &status);
    WANT(MRAPI_TIMEOUT);
    return NULL;
}

static void rwlocks(void)
{
    mrapi_status_t status;
    begin_small();
    mrapi_rwl_create(1, NULL, 0, &status);
    WANT(MRAPI_ERR_PARAMETER);
    mrapi_rwl_create(1, NULL, 33, &status);
    WANT(MRAPI_ERR_PARAMETER);
    mrapi_rwl_hndl_t rwl = mrapi_rwl_create(1, NULL, 2, &status), gone;
    OK;
    mrapi_rwl_create(1, NULL, 2, &status);
    WANT(MRAPI_ERR_RWL_EXISTS);
    gone = mrapi_rwl_create(MRAPI_RWL_ID_ANY, NULL, 2, &status);
    OK;
    mrapi_rwl_create(2, NULL, 2, &status);
    WANT(MRAPI_ERR_RWL_LIMIT);
    CHECK(mrapi_rwl_get(1, &status).handle == rwl.handle);
    OK;
    mrapi_rwl_get(2, &status);
    WANT(MRAPI_ERR_RWL_ID_INVALID);
    mrapi_rwl_lock(rwl, MRAPI_RWL_READER, MRAPI_TIMEOUT_INFINITE, &status);
    OK;
    mrapi_rwl_lock(rwl, MRAPI_RWL_WRITER, MRAPI_TIMEOUT_INFINITE, &status);
    WANT(MRAPI_ERR_RWL_LOCKED);
    CHECK(!mrapi_rwl_trylock(rwl, MRAPI_RWL_READER, &status));
    WANT(MRAPI_ERR_RWL_LOCKED);
    CHECK(!mrapi_rwl_trylock(rwl, (mrapi_rwl_mode_t)2, &status));
    WANT(MRAPI_ERR_PARAMETER);
    as_another(reads_too, &rwl);
    mrapi_rwl_unlock(rwl, MRAPI_RWL_WRITER, &status);
    WANT(MRAPI_ERR_RWL_NOTLOCKED);
    mrapi_rwl_unlock(rwl, MRAPI_RWL_READER, &status);
    OK;
    mrapi_rwl_lock(rwl, MRAPI_RWL_WRITER, MRAPI_TIMEOUT_INFINITE, &status);
    OK;
    as_another(waits_to_read, &rwl);
    mrapi_rwl_unlock(rwl, MRAPI_RWL_WRITER, &status);
    OK;
    mrapi_rwl_lock(rwl, (mrapi_rwl_mode_t)2, MRAPI_TIMEOUT_INFINITE, &status);
    WANT(MRAPI_ERR_PARAMETER);
    mrapi_rwl_unlock(rwl, (mrapi_rwl_mode_t)2, &status);
    WANT(MRAPI_ERR_PARAMETER);
    mrapi_rwl_delete(gone, &status);
    OK;
    mrapi_rwl_hndl_t wrong[3] = {gone, FOREIGN(mrapi_rwl_hndl_t), {0}};
    for (int i = 0; i < 3; i++) {
        mrapi_uint_t value;
        mrapi_rwl_lock(wrong[i], MRAPI_RWL_READER, MRAPI_TIMEOUT_INFINITE, &status);
        WANT(MRAPI_ERR_RWL_INVALID);
        CHECK(!mrapi_rwl_trylock(wrong[i], MRAPI_RWL_READER, &status));
        WANT(MRAPI_ERR_RWL_INVALID);
        mrapi_rwl_unlock(wrong[i], MRAPI_RWL_READER, &status);
        WANT(MRAPI_ERR_RWL_INVALID);
        mrapi_rwl_delete(wrong[i], &status);
        WANT(MRAPI_ERR_RWL_INVALID);
        mrapi_rwl_get_attribute(wrong[i], MRAPI_ERROR_EXT, &value, sizeof value, &status);
        WANT(MRAPI_ERR_RWL_INVALID);
    }
    end("rwlocks");
}

static void *reads_cell(void *place)
{
    mrapi_status_t status;
    mrapi_shmem_hndl_t shmem = *(mrapi_shmem_hndl_t *)place;
    mrapi_ext_shmem_read(shmem, 1, &status);
    WANT(MRAPI_ERR_SHM_NOTATTACHED);
    mrapi_ext_shmem_write(shmem, 1, 1, &status);
    WANT(MRAPI_ERR_SHM_NOTATTACHED);
    mrapi_shmem_detach(shmem, &status);
    WANT(MRAPI_ERR_SHM_NOTATTACHED);
    mrapi_ext_shmem_attach(shmem, &status);
    OK;
    CHECK(mrapi_ext_shmem_read(shmem, 1, &status) == -77);
    OK;
    mrapi_shmem_detach(shmem, &status);
    OK;
    return NULL;
}

static void segments(void)
{
    mrapi_status_t status;
    begin_small();
    mrapi_shmem_create(1, 0, NULL, 0, NULL, 0, &status);
    WANT(MRAPI_ERR_PARAMETER);
    mrapi_shmem_create(1, 8 * 4096 + 1, NULL, 0, NULL, 0, &status);
    WANT(MRAPI_ERR_PARAMETER);
    mrapi_shmem_hndl_t shmem = mrapi_shmem_create(1, 17, NULL, 0, NULL, 0, &status), gone; /* three cells */
    OK;
    mrapi_shmem_create(1, 8, NULL, 0, NULL, 0, &status);
    WANT(MRAPI_ERR_SHM_EXISTS);
    gone = mrapi_shmem_create(MRAPI_SHMEM_ID_ANY, 8 * 4096, NULL, 0, NULL, 0, &status);
    OK;
    mrapi_shmem_create(2, 8, NULL, 0, NULL, 0, &status);
    WANT(MRAPI_ERR_SHM_LIMIT);
    CHECK(mrapi_shmem_get(1, &status).handle == shmem.handle);
    OK;
    mrapi_shmem_get(2, &status);
    WANT(MRAPI_ERR_SHM_ID_INVALID);
    mrapi_shmem_detach(shmem, &status);
    WANT(MRAPI_ERR_SHM_NOTATTACHED);
    mrapi_ext_shmem_attach(shmem, &status);
    OK;
    mrapi_ext_shmem_attach(shmem, &status);
    WANT(MRAPI_ERR_SHM_ATTACHED);
    CHECK(mrapi_ext_shmem_read(shmem, 2, &status) == 0);
    OK;
    mrapi_ext_shmem_write(shmem, 1, -77, &status);
    OK;
    mrapi_ext_shmem_write(shmem, 3, 1, &status);
    WANT(MRAPI_ERR_PARAMETER);
    mrapi_ext_shmem_read(shmem, 3, &status);
    WANT(MRAPI_ERR_PARAMETER);
    as_another(reads_cell, &shmem);
    mrapi_shmem_delete(shmem, &status);
    WANT(MRAPI_ERR_SHM_ATTACHED);
    mrapi_shmem_detach(shmem, &status);
    OK;
    mrapi_shmem_delete(gone, &status);
    OK;
    mrapi_shmem_hndl_t wrong[3] = {gone, FOREIGN(mrapi_shmem_hndl_t), {0}};
    for (int i = 0; i < 3; i++) {
        CHECK(!mrapi_shmem_attach(wrong[i], &status));
        WANT(MRAPI_ERR_SHM_INVALID);
        mrapi_ext_shmem_attach(wrong[i], &status);
        WANT(MRAPI_ERR_SHM_INVALID);
        mrapi_shmem_detach(wrong[i], &status);
        WANT(MRAPI_ERR_SHM_INVALID);
        mrapi_ext_shmem_read(wrong[i], 0, &status);
        WANT(MRAPI_ERR_SHM_INVALID);
        mrapi_ext_shmem_write(wrong[i], 0, 1, &status);
        WANT(MRAPI_ERR_SHM_INVALID);
        mrapi_shmem_delete(wrong[i], &status);
        WANT(MRAPI_ERR_SHM_INVALID);
    }
    end("segments");
}

/* The memory of a segment is one for all that attach, is at first 0, and isn't the cells, nor that of the segment before it. */
static void *adds_to_memory(void *place)
{
    mrapi_status_t status;
    mrapi_shmem_hndl_t shmem = *(mrapi_shmem_hndl_t *)place;
    unsigned char *memory = mrapi_shmem_attach(shmem, &status);
    OK;
    for (int i = 0; i < 24; i++) CHECK(memory[i] == i);
    memory[23] = 99;
    CHECK(mrapi_ext_shmem_read(shmem, 2, &status) == 0);
    OK;
    mrapi_shmem_detach(shmem, &status);
    OK;
    return NULL;
}

static void memory_of_segments(void)
{
    mrapi_status_t status;
    begin_small();
    for (int round = 0; round < 2; round++) {
        mrapi_shmem_hndl_t shmem = mrapi_shmem_create(1, 17, NULL, 0, NULL, 0, &status);
        OK;
        unsigned char *memory = mrapi_shmem_attach(shmem, &status);
        OK;
        CHECK(memory);
        CHECK(!mrapi_shmem_attach(shmem, &status));
        WANT(MRAPI_ERR_SHM_ATTACHED);
        for (int i = 0; i < 24; i++) {
            CHECK(memory[i] == 0);
            memory[i] = (unsigned char)i;
        }
        as_another(adds_to_memory, &shmem);
        CHECK(memory[23] == 99);
        mrapi_shmem_delete(shmem, &status);
        WANT(MRAPI_ERR_SHM_ATTACHED);
        mrapi_shmem_detach(shmem, &status);
        OK;
        CHECK(mrapi_shmem_attach(shmem, &status) == memory); /* what was written stays */
        OK;
        CHECK(memory[23] == 99);
        mrapi_shmem_detach(shmem, &status);
        OK;
        mrapi_shmem_delete(shmem, &status);
        OK;
    }
    mrapi_shmem_hndl_t left = mrapi_shmem_create(1, 8, NULL, 0, NULL, 0, &status); /* goes with the node */
    OK;
    mrapi_shmem_attach(left, &status);
    OK;
    end("memory_of_segments");
}

/* Four threads add to one number of theirs, under a mutex, a semaphore and a lock for one writer. Each now and then holds what it
 * has for a while, so that the others sleep and have to be woken. */
enum { THREADS = 4, EACH = 200 };
static mrapi_mutex_hndl_t by_mutex;
static mrapi_sem_hndl_t by_sem;
static mrapi_rwl_hndl_t by_rwl;
static int sum;

static void *adds(void *unused)
{
    (void)unused;
    mrapi_status_t status;
    mrapi_key_t key;
    for (int i = 0; i < EACH; i++) {
        mrapi_mutex_lock(by_mutex, &key, MRAPI_TIMEOUT_INFINITE, &status);
        OK;
        sum++;
        if (i % 20 == 0) NAP(1);
        mrapi_mutex_unlock(by_mutex, &key, &status);
        OK;
        mrapi_sem_lock(by_sem, MRAPI_TIMEOUT_INFINITE, &status);
        OK;
        if (i % 20 == 7) NAP(1);
        mrapi_sem_unlock(by_sem, &status);
        OK;
        mrapi_rwl_lock(by_rwl, i % 2 ? MRAPI_RWL_WRITER : MRAPI_RWL_READER, MRAPI_TIMEOUT_INFINITE, &status);
        OK;
        if (i % 20 == 13) NAP(1);
        mrapi_rwl_unlock(by_rwl, i % 2 ? MRAPI_RWL_WRITER : MRAPI_RWL_READER, &status);
        OK;
    }
    return NULL;
}

static void contention(void)
{
    pthread_t threads[THREADS];
    mrapi_status_t status;
    begin(1);
    by_mutex = mrapi_mutex_create(1, NULL, &status);
    OK;
    by_sem = mrapi_sem_create(1, NULL, 1, &status);
    OK;
    by_rwl = mrapi_rwl_create(1, NULL, 4, &status);
    OK;
    for (int i = 0; i < THREADS; i++) CHECK(pthread_create(&threads[i], NULL, adds, NULL) == 0);
    for (int i = 0; i < THREADS; i++) CHECK(pthread_join(threads[i], NULL) == 0);
    CHECK(sum == THREADS * EACH);
    end("contention");
}

/* What the profile leaves out says so. */
static void left_out(void)
{
    mrapi_status_t status;
    mrapi_node_attributes_t of_node;
    mrapi_rmem_attributes_t of_rmem;
    mrapi_rmem_hndl_t rmem = {0};
    mrapi_request_t request = {0};
    size_t size;
    char byte = 0;
    mrapi_node_init_attributes(&of_node, &status);
    WANT(MRAPI_ERR_NOT_SUPPORTED);
    mrapi_node_set_attribute(&of_node, 1, &byte, 1, &status);
    WANT(MRAPI_ERR_NOT_SUPPORTED);
    mrapi_node_get_attribute(1, 1, &byte, 1, &status);
    WANT(MRAPI_ERR_NOT_SUPPORTED);
    mrapi_rmem_init_attributes(&of_rmem, &status);
    WANT(MRAPI_ERR_NOT_SUPPORTED);
    mrapi_rmem_set_attribute(&of_rmem, 1, &byte, 1, &status);
    WANT(MRAPI_ERR_NOT_SUPPORTED);
    mrapi_rmem_get_attribute(rmem, 1, &byte, 1, &status);
    WANT(MRAPI_ERR_NOT_SUPPORTED);
    CHECK(mrapi_rmem_create(1, &byte, 1, &of_rmem, 1, &status).handle == 0);
    WANT(MRAPI_ERR_NOT_SUPPORTED);
    CHECK(mrapi_rmem_get(1, 1, &status).handle == 0);
    WANT(MRAPI_ERR_NOT_SUPPORTED);
    mrapi_rmem_attach(rmem, MRAPI_RMEM_DEFAULT, &status);
    WANT(MRAPI_ERR_NOT_SUPPORTED);
    mrapi_rmem_detach(rmem, &status);
    WANT(MRAPI_ERR_NOT_SUPPORTED);
    mrapi_rmem_delete(rmem, &status);
    WANT(MRAPI_ERR_NOT_SUPPORTED);
    mrapi_rmem_read(rmem, 1, &byte, 1, 1, 1, 1, 1, &status);
    WANT(MRAPI_ERR_NOT_SUPPORTED);
    mrapi_rmem_write(rmem, 1, &byte, 1, 1, 1, 1, 1, &status);
    WANT(MRAPI_ERR_NOT_SUPPORTED);
    CHECK(mrapi_rmem_read_i(rmem, 1, &byte, 1, 1, 1, 1, 1, &status).handle == 0);
    WANT(MRAPI_ERR_NOT_SUPPORTED);
    CHECK(mrapi_rmem_write_i(rmem, 1, &byte, 1, 1, 1, 1, 1, &status).handle == 0);
    WANT(MRAPI_ERR_NOT_SUPPORTED);
    mrapi_rmem_flush(rmem, &status);
    WANT(MRAPI_ERR_NOT_SUPPORTED);
    mrapi_rmem_sync(rmem, &status);
    WANT(MRAPI_ERR_NOT_SUPPORTED);
    CHECK(mrapi_test(&request, &size, &status) == 0);
    WANT(MRAPI_ERR_NOT_SUPPORTED);
    CHECK(mrapi_wait(&request, &size, MRAPI_TIMEOUT_INFINITE, &status) == 0);
    WANT(MRAPI_ERR_NOT_SUPPORTED);
    CHECK(mrapi_wait_any(1, &request, &size, MRAPI_TIMEOUT_INFINITE, &status) == 0);
    WANT(MRAPI_ERR_NOT_SUPPORTED);
    mrapi_cancel(&request, &status);
    WANT(MRAPI_ERR_NOT_SUPPORTED);
    CHECK(!mrapi_resources_get(MRAPI_RSRC_CPU, &status));
    WANT(MRAPI_ERR_NOT_SUPPORTED);
    mrapi_resource_get_attribute(MRAPI_NULL, 1, &byte, 1, &status);
    WANT(MRAPI_ERR_NOT_SUPPORTED);
    mrapi_dynamic_attribute_start(MRAPI_NULL, 1, &status);
    WANT(MRAPI_ERR_NOT_SUPPORTED);
    mrapi_dynamic_attribute_reset(MRAPI_NULL, 1, &status);
    WANT(MRAPI_ERR_NOT_SUPPORTED);
    mrapi_dynamic_attribute_stop(MRAPI_NULL, 1, &status);
    WANT(MRAPI_ERR_NOT_SUPPORTED);
    mrapi_resource_register_callback(1, 1, MRAPI_NULL, &status);
    WANT(MRAPI_ERR_NOT_SUPPORTED);
    mrapi_resource_tree_free(MRAPI_NULL, &status);
    WANT(MRAPI_ERR_NOT_SUPPORTED);
}

int main(void)
{
    left_out();
    without_a_node();
    nodes();
    mutexes();
    attributes();
    semaphores();
    rwlocks();
    segments();
    memory_of_segments();
    contention();
    without_a_node();
    return 0;
}
