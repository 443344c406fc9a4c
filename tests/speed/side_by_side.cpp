// The comparison, then rounds of measuring.
#include "side_by_side.hpp"

#include "plain.hpp"
#include "stopwatch.hpp"

#include "draws.hpp"
#include "library.hpp"

#include <algorithm>
#include <stdexcept>

namespace speed {

namespace {

// Both must answer the same and leave the same in their buffers, or one would be no yardstick for the other.
void compare(row& r) {
    r.answer = r.library.run(r.c);
    if (r.answer != r.plain.run(r.c) || r.library.tree != r.plain.tree || r.library.work != r.plain.work)
        throw std::runtime_error("the library and the plain program differ on\n" + line_of(r.c));
}

void measure_round(row& r) {
    const auto [library, plain] = seconds_of_both([&] { r.library.run(r.c); }, [&] { r.plain.run(r.c); });
    r.library.seconds = std::min(r.library.seconds, library);
    r.plain.seconds = std::min(r.plain.seconds, plain);
}

} // namespace

row::row(const asked& question)
    : name(question.name), c(question.c), library{library::write}, plain{plain::write} {}

// In rounds, so that what else the machine has to do falls on all questions alike.
void measure(std::span<group> groups) {
    for (group& g : groups) std::ranges::for_each(g.rows, compare);
    for (std::size_t round = 0; round < second::share_of(6); ++round)
        for (group& g : groups) std::ranges::for_each(g.rows, measure_round);
}

} // namespace speed
