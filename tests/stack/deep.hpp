// Calls that go deep: long chains of entries, operators of time anywhere in them, large trees.
#pragma once

#include "cases.hpp"

namespace stack {

struct group {
    std::string name;
    std::vector<second::test_case> calls;
};

// Questions on chains of 32 entries, as write calls with buffers that are long enough; not answered yet.
std::vector<group> deep_questions();

// Random calls of a shape, answered.
group random_group(const std::string& shape, int calls);

// Calls of check, and of truth, find or write, each with the reference's answer.
std::vector<group> deep_checks();
std::vector<group> deep_lent_calls(second::call what);

} // namespace stack
