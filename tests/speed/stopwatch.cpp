// Batches of calls by the processor's time: other programs of the machine do not count in it.
#include "stopwatch.hpp"

#include <algorithm>
#include <cstddef>
#include <ctime>

namespace speed {

namespace {

constexpr double BATCH = 0.001, ALL = 0.04, ROUND = 0.01;

double now() {
    timespec t;
    clock_gettime(CLOCK_PROCESS_CPUTIME_ID, &t);
    return double(t.tv_sec) + double(t.tv_nsec) * 1e-9;
}

double seconds_of_batch(const std::function<void()>& call, std::size_t calls) {
    const double start = now();
    for (std::size_t k = 0; k < calls; ++k) call();
    return now() - start;
}

// The batches of a call: how many calls make one, and the least so far. Finding
// that out is not counted as spent.
class batches {
public:
    batches(const std::function<void()>& call, double all) : call(call), all(all) {
        least = spent = seconds_of_batch(call, calls);
        while (least < BATCH) calls *= 2, least = seconds_of_batch(call, calls);
    }

    bool done() const { return spent >= all; }

    void again() {
        if (done()) return;
        const double batch = seconds_of_batch(call, calls);
        least = std::min(least, batch), spent += batch;
    }

    double seconds() const { return least / double(calls); }

private:
    const std::function<void()>& call;
    const double all;
    std::size_t calls = 1;
    double least, spent;
};

} // namespace

double seconds_of(const std::function<void()>& call) {
    batches b(call, ALL);
    while (!b.done()) b.again();
    return b.seconds();
}

both_seconds seconds_of_both(const std::function<void()>& one, const std::function<void()>& other) {
    batches a(one, ROUND), b(other, ROUND);
    while (!a.done() || !b.done()) a.again(), b.again();
    return {a.seconds(), b.seconds()};
}

} // namespace speed
