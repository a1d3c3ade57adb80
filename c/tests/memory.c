/* Want of memory: whichever call of malloc, calloc or realloc is the first to fail in mtapi_initialize, it answers a status,
 * leaves nothing behind, and may be called again. The same where a segment's memory is asked for. */
#include "check.h"
#include <stdatomic.h>

static atomic_long left = -1; /* calls until one fails, and all behind it; -1: none does */
static atomic_long given, back;

static bool is_refused(void)
{
    long now = atomic_load(&left);
    if (now < 0) return false;
    if (now == 0) return true;
    atomic_store(&left, now - 1);
    return false;
}

/* The linker puts these between the library and the heap (--wrap). */
void *__real_malloc(size_t size);
void *__real_calloc(size_t count, size_t size);
void *__real_realloc(void *old, size_t size);
void __real_free(void *block);
void *__wrap_malloc(size_t size);
void *__wrap_calloc(size_t count, size_t size);
void *__wrap_realloc(void *old, size_t size);
void __wrap_free(void *block);

void *__wrap_malloc(size_t size)
{
    void *block = is_refused() ? NULL : __real_malloc(size);
    if (block) atomic_fetch_add(&given, 1);
    return block;
}

void *__wrap_calloc(size_t count, size_t size)
{
    void *block = is_refused() ? NULL : __real_calloc(count, size);
    if (block) atomic_fetch_add(&given, 1);
    return block;
}

void *__wrap_realloc(void *old, size_t size)
{
    void *block = is_refused() ? NULL : __real_realloc(old, size);
    if (block && !old) atomic_fetch_add(&given, 1);
    return block;
}

void __wrap_free(void *block)
{
    if (block) atomic_fetch_add(&back, 1);
    __real_free(block);
}

ACTION(add_one)
{
    UNUSED;
    *(int *)result = *(const int *)arguments + 1;
}

static void work(void)
{
    mtapi_status_t status;
    int argument = 4, result = 0;
    mtapi_task_wait(start(job_of(1, add_one), &argument, sizeof argument, &result, sizeof result), MTAPI_INFINITE, &status);
    OK;
    CHECK(result == 5);
}

/* Whether the node, which works, has kept a journal: else memory was short for that, which is told at the end. */
static bool has_ended_well(void)
{
    mtapi_status_t status;
    FILE *file = tmpfile();
    CHECK(file);
    work();
    mtapi_ext_finalize(file, &status);
    fclose(file);
    if (status == MTAPI_EXT_ERR_JOURNAL) return false;
    OK;
    return true;
}

/* Of a segment whose memory is refused nothing is attached. Without a journal, which would want memory too. */
static void memory_of_a_segment(void)
{
    mrapi_status_t status;
    mrapi_initialize(1, 1, MRAPI_NULL, MRAPI_NULL, &status);
    OK;
    mrapi_shmem_hndl_t shmem = mrapi_shmem_create(1, 8, MRAPI_NULL, 0, MRAPI_NULL, 0, &status);
    OK;
    atomic_store(&left, 0);
    CHECK(!mrapi_shmem_attach(shmem, &status));
    atomic_store(&left, -1);
    WANT(MRAPI_EXT_ERR_MEMORY);
    mrapi_shmem_detach(shmem, &status);
    WANT(MRAPI_ERR_SHM_NOTATTACHED);
    CHECK(mrapi_shmem_attach(shmem, &status));
    OK;
    mrapi_finalize(&status);
    OK;
}

int main(void)
{
    mtapi_status_t status;
    mtapi_node_attributes_t attributes = settings(2);
    begin(2); /* what C's own library takes once is taken now */
    work();
    end("memory");
    long refused = 0;
    for (long first = 0;; first++) {
        long held = atomic_load(&given) - atomic_load(&back);
        atomic_store(&left, first);
        mtapi_initialize(1, 1, &attributes, NULL, &status);
        atomic_store(&left, -1);
        if (status == MTAPI_SUCCESS && has_ended_well()) break;
        if (status == MTAPI_SUCCESS) continue;
        WANT(MTAPI_EXT_ERR_MEMORY);
        CHECK(atomic_load(&given) - atomic_load(&back) == held);
        mtapi_finalize(&status);
        WANT(MTAPI_ERR_NODE_NOTINIT);
        refused++;
    }
    CHECK(refused >= 3);
    atomic_store(&left, 0);
    mrapi_initialize(1, 1, MRAPI_NULL, MRAPI_NULL, &status);
    atomic_store(&left, -1);
    WANT(MRAPI_EXT_ERR_MEMORY);
    CHECK(atomic_load(&given) == atomic_load(&back));
    memory_of_a_segment();
    CHECK(atomic_load(&given) == atomic_load(&back));
    return 0;
}
