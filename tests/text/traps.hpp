// Texts made to trap a reader: each has one thing in it on purpose, and for most it is known
// beforehand what must be answered.
#pragma once

#include "random.hpp"

#include <functional>
#include <string>
#include <vector>

namespace text {

// A text, and what must be answered: a refusal with its line (0 for none), or, where the
// number is 0, anything but 13 and 14.
struct trapped {
    std::string text;
    std::uint32_t number;
    std::size_t line;
};

// The lines of a sound text, without their newlines: prefix, loop, the entries, ask. There is a prefix
// letter, a loop letter and an entry, and at most 40 letters and 20 entries.
using lines = std::vector<std::string>;

struct trap {
    std::string name;
    std::function<trapped(lines, second::random_source&)> make;
};

// Those that make one line wrong, or the order of lines; and those of lengths, limits and numbers.
std::vector<trap> line_traps();
std::vector<trap> limit_traps();

// All of them.
std::vector<trap> all_traps();

// The lines with their newlines.
std::string joined(const lines& all);

} // namespace text
