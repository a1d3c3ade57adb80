// Counts the placings of so many queens on four threads, with `parallel_invoke`: what `crates/mtapi_split` does, without a node.
// The words are how many queens there are, and with more than how many free rows a board splits. Prints the least nanoseconds of
// five tries, and the number of placings.
#include <oneapi/tbb/global_control.h>
#include <oneapi/tbb/parallel_invoke.h>

#include <chrono>
#include <cstdint>
#include <cstdio>
#include <cstdlib>

struct Board {
    unsigned size, rows;
    std::uint32_t straight, left, right;
};

bool with_queen(const Board& board, unsigned column, Board& next) {
    const std::uint32_t queen = std::uint32_t{1} << column;
    if ((board.straight | board.left | board.right) & queen) return false;
    next = {board.size, board.rows - 1, board.straight | queen, (board.left | queen) << 1, (board.right | queen) >> 1};
    return true;
}

std::uint64_t count(const Board& board) {
    if (board.rows == 0) return 1;
    std::uint64_t placings = 0;
    Board next;
    for (unsigned column = 0; column < board.size; ++column) {
        if (with_queen(board, column, next)) placings += count(next);
    }
    return placings;
}

// Of the boards with a queen in one of these columns of the next row.
std::uint64_t placings(const Board& board, unsigned from, unsigned to, unsigned grain) {
    if (to - from > 1) {
        const unsigned middle = (from + to) / 2;
        std::uint64_t first = 0, second = 0;
        tbb::parallel_invoke([&] { first = placings(board, from, middle, grain); }, [&] { second = placings(board, middle, to, grain); });
        return first + second;
    }
    Board next;
    if (!with_queen(board, from, next)) return 0;
    return next.rows > grain ? placings(next, 0, next.size, grain) : count(next);
}

int main(int argc, char** argv) {
    if (argc != 3) return 2;
    const unsigned size = std::strtoul(argv[1], nullptr, 10), grain = std::strtoul(argv[2], nullptr, 10);
    tbb::global_control threads(tbb::global_control::max_allowed_parallelism, 4);
    const Board board = {size, size, 0, 0, 0};
    long long least = -1;
    std::uint64_t all = 0;
    for (int time = 0; time < 5; ++time) {
        const auto began = std::chrono::steady_clock::now();
        all = size > grain ? placings(board, 0, size, grain) : count(board);
        const long long took = std::chrono::duration_cast<std::chrono::nanoseconds>(std::chrono::steady_clock::now() - began).count();
        if (least < 0 || took < least) least = took;
    }
    std::printf("%lld %llu\n", least, static_cast<unsigned long long>(all));
}
