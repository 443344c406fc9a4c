// A question put to the library and to the plain program, in the same process: what they
// answer, and how long each takes.
#pragma once

#include "asked.hpp"

namespace speed {

using writer = second::answer(second::words, second::words, second::words, std::size_t, std::size_t,
                              std::span<std::uint16_t>, std::span<std::uint32_t>);

// A program with the buffers that it is lent, full of something at first.
struct runner {
    writer* write;
    std::vector<std::uint16_t> work = std::vector<std::uint16_t>(second::MIN_WORK, 0x5555);
    std::vector<std::uint32_t> tree = std::vector<std::uint32_t>(second::MAX_TREE, 0x5555);
    double seconds = 1e9; // the least so far

    second::answer run(const second::test_case& c) {
        return write(c.prefix, c.loop, c.table, c.entry, c.position, work, tree);
    }
};

struct row {
    explicit row(const asked& question);

    double ratio() const { return library.seconds / plain.seconds; }

    std::string name;
    second::test_case c;
    runner library, plain;
    second::answer answer;
};

// Questions of one sort.
struct group {
    group(const std::string& name, const std::vector<asked>& questions)
        : name(name), rows(questions.begin(), questions.end()) {}

    std::string name;
    std::vector<row> rows;
};

// Throws std::runtime_error where the two differ.
void measure(std::span<group> groups);

} // namespace speed
