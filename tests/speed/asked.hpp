// A question that is measured: a name, and a write call with buffers that are long enough.
#pragma once

#include "cases.hpp"

namespace speed {

using list = std::vector<std::uint32_t>;

struct asked {
    std::string name;
    second::test_case c; // not answered yet
};

// The last entry of a table at a position. Of the letters, so many are the prefix and the others the loop.
second::test_case question(const list& table, const list& letters, std::size_t prefix, std::size_t position);

} // namespace speed
