// The tasks of `mtapi gen N W` under StarPU: `starpu N W` runs as many on W threads, waits for each by its handle, and writes the sum of what
// they answered. Each task is submitted by main, has a priority, and adds its answer to the sum by itself.

#include <starpu.h>
#include <stdatomic.h>
#include <stdint.h>
#include <stdio.h>
#include <stdlib.h>

static _Atomic int64_t sum;

static void work(void *buffers[], void *argument) {
    (void)buffers;
    const int64_t i = (int64_t)(intptr_t)argument;
    if (i % 2 == 0) {
        sum += i + 7;
    } else {
        const int64_t n = i % 64;
        sum += n * (n + 1) / 2;
    }
}

int main(int count, char **words) {
    if (count != 3) return 2;
    const int64_t tasks = atoll(words[1]);
    struct starpu_conf conf;
    starpu_conf_init(&conf);
    conf.ncpus = atoi(words[2]);
    conf.ncuda = 0;
    conf.nopencl = 0;
    conf.sched_policy_name = "prio";
    if (starpu_init(&conf) != 0) return 1;
    static struct starpu_codelet codelet = {.cpu_funcs = {work}, .nbuffers = 0};
    struct starpu_task **handles = malloc(tasks * sizeof *handles);
    if (!handles) return 1;
    for (int64_t i = 0; i < tasks; i++) {
        struct starpu_task *task = starpu_task_create();
        task->cl = &codelet;
        task->cl_arg = (void *)(intptr_t)i;
        task->detach = 0;
        task->priority = (int)(i % 4);
        if (starpu_task_submit(task) != 0) return 1;
        handles[i] = task;
    }
    for (int64_t i = 0; i < tasks; i++) {
        if (starpu_task_wait(handles[i]) != 0) return 1;
    }
    starpu_shutdown();
    printf("%lld\n", (long long)sum);
    return 0;
}
