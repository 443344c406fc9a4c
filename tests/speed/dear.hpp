// The dearest questions: for the filling 48 letters, 32 entries, heights at 5, every second entry an
// until; for the heights many ways down.
#pragma once

#include "asked.hpp"

namespace speed {

std::vector<asked> dear_questions();

// A table with many ways down: so many entries, each and(k - 1, k - 2), violated everywhere.
second::test_case branching_question(std::size_t entries);

} // namespace speed
