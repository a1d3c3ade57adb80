/* Threads that are refused: whichever worker can't be started, mtapi_initialize answers a status and leaves none behind. */
#include "check.h"
#include <errno.h>
#include <pthread.h>

static int left; /* threads until one is refused */

/* The linker puts this between the library and the system (--wrap). */
int __real_pthread_create(pthread_t *, const pthread_attr_t *, void *(*)(void *), void *);
int __wrap_pthread_create(pthread_t *, const pthread_attr_t *, void *(*)(void *), void *);

int __wrap_pthread_create(pthread_t *thread, const pthread_attr_t *attributes, void *(*function)(void *), void *argument)
{
    if (left-- == 0) return EAGAIN;
    return __real_pthread_create(thread, attributes, function, argument);
}

/* The threads of this process, as Linux tells them. */
static int threads(void)
{
    char line[256];
    int number = 0;
    FILE *file = fopen("/proc/self/status", "r");
    CHECK(file);
    while (fgets(line, sizeof line, file)) sscanf(line, "Threads: %d", &number);
    fclose(file);
    return number;
}

int main(void)
{
    mtapi_status_t status;
    mtapi_node_attributes_t attributes = settings(4);
    left = -1;
    begin(4); /* which may leave a thread that is no worker, of a tool's */
    end("refused_threads");
    int before = threads();
    for (int first = 0; first < 4; first++) {
        left = first;
        mtapi_initialize(1, 1, &attributes, NULL, &status);
        WANT(MTAPI_ERR_NODE_INITFAILED);
        left = 0;
        mrapi_initialize(1, 1, MRAPI_NULL, MRAPI_NULL, &status);
        WANT(MRAPI_ERR_NODE_INITFAILED);
        for (int i = 0; threads() != before; i++) {
            CHECK(i < 10000);
            NAP(1);
        }
        mtapi_finalize(&status);
        WANT(MTAPI_ERR_NODE_NOTINIT);
    }
    left = -1;
    begin(4);
    end("refused_threads");
    return 0;
}
