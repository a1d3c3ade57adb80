// The tasks of `mtapi gen N W` under oneTBB: `tbb N W` runs as many on W threads, waits for all of them, and writes the sum of what they
// answered. Each task is started by main and adds its answer to the sum by itself.

#include <atomic>
#include <cstdint>
#include <cstdio>
#include <cstdlib>
#include <oneapi/tbb/global_control.h>
#include <oneapi/tbb/task_arena.h>
#include <oneapi/tbb/task_group.h>

int main(int, char **words) {
    const std::int64_t tasks = std::atoll(words[1]);
    const int workers = std::atoi(words[2]);
    // Main only starts and waits, as in `mtapi`: the workers are threads beside it. It runs tasks while it waits.
    tbb::global_control most(tbb::global_control::max_allowed_parallelism, workers + 1);
    tbb::task_arena arena(workers + 1);
    std::atomic<std::int64_t> sum{0};
    arena.execute([&] {
        tbb::task_group group;
        for (std::int64_t i = 0; i < tasks; i++) {
            if (i % 2 == 0) {
                group.run([i, &sum] { sum += i + 7; });
            } else {
                group.run([i, &sum] { std::int64_t n = i % 64; sum += n * (n + 1) / 2; });
            }
        }
        group.wait();
    });
    std::printf("%lld\n", static_cast<long long>(sum.load()));
}
