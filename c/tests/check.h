/* What the test programs share: a wrong status is told with its line, and ends the program with 1. A program leaves the journal
 * of each of its nodes in the folder that the variable JOURNALS names. */
#ifndef MTAPI_TESTS_CHECK_H
#define MTAPI_TESTS_CHECK_H

#define _DEFAULT_SOURCE
#include "../mrapi.h"
#include "../mtapi.h"
#include <stdbool.h>
#include <stdio.h>
#include <stdlib.h>
#include <time.h>

#define CHECK(truth)                                                                      \
    do {                                                                                  \
        if (!(truth)) {                                                                   \
            fprintf(stderr, "%s:%d: not so: %s\n", __FILE__, __LINE__, #truth);           \
            exit(1);                                                                      \
        }                                                                                 \
    } while (0)

/* The status that a call answered. */
#define WANT(wanted)                                                                                                   \
    do {                                                                                                               \
        if (status != (wanted)) {                                                                                      \
            fprintf(stderr, "%s:%d: status %u (%s) in place of %s\n", __FILE__, __LINE__, (unsigned)status,            \
                mtapi_ext_status_name(status), #wanted);                                                               \
            exit(1);                                                                                                   \
        }                                                                                                              \
        status = 0xdead;                                                                                               \
    } while (0)

#define OK WANT(MTAPI_SUCCESS)

/* An action's parameters, of which it uses some. */
#define ACTION(name)                                                                                                   \
    static void name(const void *arguments, mtapi_size_t arguments_size, void *result, mtapi_size_t result_size,       \
        const void *data, mtapi_size_t data_size, mtapi_task_context_t *context)
#define UNUSED (void)arguments, (void)arguments_size, (void)result, (void)result_size, (void)data, (void)data_size, (void)context

/* ThreadSanitizer has a thread of its own, so that the library never knows that no other one can call. */
#if defined(__SANITIZE_THREAD__)
#define WATCHED_BY_A_THREAD
#elif defined(__has_feature)
#if __has_feature(thread_sanitizer)
#define WATCHED_BY_A_THREAD
#endif
#endif

#define NAP(milliseconds) nanosleep(&(struct timespec){(milliseconds) / 1000, (milliseconds) % 1000 * 1000000L}, NULL)

#define FOREIGN(kind) ((kind){0xfeedface12345678u})

static inline double seconds(void)
{
    struct timespec now;
    clock_gettime(CLOCK_MONOTONIC, &now);
    return (double)now.tv_sec + (double)now.tv_nsec * 1e-9;
}

/* Attributes of a node with so many workers, which keeps a journal. */
static inline mtapi_node_attributes_t settings(unsigned workers)
{
    mtapi_status_t status;
    mtapi_node_attributes_t attributes;
    mtapi_nodeattr_init(&attributes, &status);
    OK;
    mtapi_nodeattr_set(&attributes, MTAPI_NODE_NUMCORES, &workers, sizeof workers, &status);
    OK;
    mtapi_nodeattr_set(&attributes, MTAPI_EXT_NODE_JOURNAL, MTAPI_ATTRIBUTE_VALUE(MTAPI_TRUE),
        MTAPI_ATTRIBUTE_POINTER_AS_VALUE, &status);
    OK;
    return attributes;
}

static inline void begin(unsigned workers)
{
    mtapi_status_t status;
    mtapi_node_attributes_t attributes = settings(workers);
    mtapi_initialize(1, 1, &attributes, MTAPI_NULL, &status);
    OK;
}

/* Finalizes the node, and writes its journal into the next file of this program. */
static inline void end(const char *name)
{
    static int number;
    mtapi_status_t status;
    char path[4096];
    const char *folder = getenv("JOURNALS");
    FILE *file = NULL;
    if (folder) {
        snprintf(path, sizeof path, "%s/%s.%d.journal", folder, name, number++);
        file = fopen(path, "w");
        CHECK(file);
    }
    mtapi_ext_finalize(file, &status);
    OK;
    if (file) CHECK(fclose(file) == 0);
}

/* An action for this job, and the job. */
static inline mtapi_job_hndl_t job_of(mtapi_job_id_t id, mtapi_action_function_t function)
{
    mtapi_status_t status;
    mtapi_action_create(id, function, MTAPI_NULL, 0, MTAPI_DEFAULT_ACTION_ATTRIBUTES, &status);
    OK;
    mtapi_job_hndl_t job = mtapi_job_get(id, 1, &status);
    OK;
    return job;
}

/* A task of this job, with neither attributes nor a group. */
static inline mtapi_task_hndl_t start(mtapi_job_hndl_t job, const void *arguments, size_t size, void *result, size_t room)
{
    mtapi_status_t status;
    mtapi_task_hndl_t task = mtapi_task_start(
        MTAPI_TASK_ID_NONE, job, arguments, size, result, room, MTAPI_DEFAULT_TASK_ATTRIBUTES, MTAPI_GROUP_NONE, &status);
    OK;
    return task;
}

#endif
