// Judges of whole cases, which reach the expected answer another way than the reference does.
#pragma once

#include "cases.hpp"

namespace second {

// The answer of a call on lists: all conditions of 01's table of refusals tested one by one,
// then the first in the call's order. The verdict is only judged where the lists are short, and
// is otherwise taken from the case.
answer judged_answer(const test_case& c);

// The least size of a sound question, exact up to 6,000.
std::uint64_t exact_size(const test_case& c);

// The place of the view's part in its list, by long division in binary.
std::size_t judged_first(const test_case& c);

// The output of the text program: a line is right if printing the numbers read from it gives the line again.
std::string judged_output(const std::string& text);

} // namespace second
