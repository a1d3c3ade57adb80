/* A pool of threads that prints its journal, for `mtapi` to judge. With -DWRONG_ORDER a worker takes the newest task, and not one of the
 * best priority. */
#include "../mtapi_journal.h"
#include <pthread.h>

#define TASKS 8
static struct { int64_t value; unsigned priority; enum { NONE, READY, TAKEN, ENDED } state; } tasks[TASKS];
static mtj_journal journal;
static pthread_mutex_t lock = PTHREAD_MUTEX_INITIALIZER;
static pthread_cond_t changed = PTHREAD_COND_INITIALIZER;
static int closed, left;
static const mtj_handle action = {1, 0};

static mtj_handle handle(int i) { return (mtj_handle){1, (uint32_t)i}; }
static mtj_list numbers(int i) { return (mtj_list){&tasks[i].value, 1}; }

/* The task that a worker takes, or -1. */
static int best(void)
{
    int found = -1;
    for (int i = 0; i < TASKS; i++)
        if (tasks[i].state == READY) {
#ifdef WRONG_ORDER
            found = i;
#else
            if (found < 0 || tasks[i].priority < tasks[found].priority)
                found = i;
#endif
        }
    return found;
}

static void *work(void *number)
{
    mtj_seat self = mtj_worker((unsigned)(intptr_t)number);
    pthread_mutex_lock(&lock);
    for (;;) {
        int i = best();
        if (i >= 0) {
            tasks[i].state = TAKEN; /* taken, and told, under the lock */
            mtj_pick(&journal, self, handle(i), action, "echo", numbers(i));
            pthread_mutex_unlock(&lock);
            /* the work itself: outside */
            pthread_mutex_lock(&lock);
            tasks[i].state = ENDED;
            left--;
            mtj_finish(&journal, self, handle(i), "echo", numbers(i), numbers(i));
            pthread_cond_broadcast(&changed);
        } else if (closed && left == 0) {
            mtj_stop(&journal, self);
            pthread_mutex_unlock(&lock);
            return NULL;
        } else
            pthread_cond_wait(&changed, &lock);
    }
}

int main(void)
{
    mtj_seat self = mtj_caller(0);
    pthread_t threads[2];
    mtj_begin(&journal, stdout, (mtj_settings){.workers = 2, .callers = 1});
    mtj_initialize(&journal, self);
    mtj_release(&journal, self);
    mtj_action_create(&journal, self, 1, "echo", MTJ_ALL_CORES, action);
    for (int i = 0; i < TASKS; i++) {
        tasks[i].value = i;
        tasks[i].priority = (unsigned)(i % 3);
        tasks[i].state = READY;
        left++;
        mtj_task_start(&journal, self, 1, numbers(i), tasks[i].priority, MTJ_ALL_CORES, 0, MTJ_NO_GROUP, handle(i));
    }
    for (intptr_t w = 0; w < 2; w++)
        pthread_create(&threads[w], NULL, work, (void *)w);
    pthread_mutex_lock(&lock);
    for (int i = 0; i < TASKS; i++) {
        while (tasks[i].state != ENDED)
            pthread_cond_wait(&changed, &lock);
        mtj_task_ended(&journal, self, handle(i), numbers(i));
    }
    closed = 1;
    mtj_close(&journal, self);
    pthread_cond_broadcast(&changed);
    pthread_mutex_unlock(&lock);
    for (int w = 0; w < 2; w++)
        pthread_join(threads[w], NULL);
    mtj_final(&journal, self);
    return journal.failed || fflush(stdout);
}
