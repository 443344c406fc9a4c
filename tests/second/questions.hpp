// Random schedules, tables and asked places: what the shapes are made of.
#pragma once

#include "cases.hpp"
#include "random.hpp"

namespace second {

constexpr std::uint32_t entry_word(std::uint64_t kind, std::uint64_t left, std::uint64_t right) {
    return std::uint32_t(kind * 65536 + left * 256 + right);
}

// Letters over the first few atoms, each atom rare, common, or anything between, so that long runs
// come up as well as quick changes.
std::vector<std::uint32_t> random_letters(random_source& r, std::size_t count, std::size_t atoms);

// Puts prefix and loop into a case.
void random_schedule(test_case& c, random_source& r, std::size_t least_loop, std::size_t most_letters);

// The kinds to choose from, one named twice coming twice as often; parts are among the last
// `near` entries half of the time.
struct mixture {
    std::vector<std::uint64_t> kinds;
    std::uint64_t near;
};

extern const mixture ALL, PAST, FUTURE, DEEP, SHARED;

// A table in the making, with the heights of its entries.
struct growing_table {
    std::vector<std::uint32_t> words;
    std::vector<std::size_t> past, future;

    void add(std::uint32_t word);
    void drop();
    std::size_t heights(std::size_t k) const { return past[k] + future[k]; }
};

// A table that earns neither 4 nor 5.
std::vector<std::uint32_t> random_table(random_source& r, std::size_t entries, const mixture& m);

// Entry, position, one of truth, find and write, and buffers that are long enough.
void random_ask(test_case& c, random_source& r);

// The same, but of some places the one with the largest tree: most random places
// have a tiny one. Gives its size.
std::uint32_t demanding_ask(test_case& c, random_source& r);

void random_question(test_case& c, random_source& r, std::size_t most_letters, std::size_t most_entries,
                     const mixture& m);

} // namespace second
