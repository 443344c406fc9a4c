// The library's calls held against one another, without the second program.
#pragma once

#include "cases.hpp"

namespace compare {

// Asks truth, find, write and check the same, the last with the words written, and with several things in the
// work slice. Throws second::failure if they do not agree; else says in what they do.
std::string agreement(const second::test_case& c);

} // namespace compare
