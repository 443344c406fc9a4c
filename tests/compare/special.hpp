// What a wrong finder or writer would be caught by: least trees with rivals.
#pragma once

#include "cases.hpp"

namespace compare {

// All that a run has to meet.
extern const std::vector<std::string> SPECIALS;

// What is special about the least tree of a question that has none of refusals 1 to 7.
std::vector<std::string> specials_of(const second::test_case& c);

} // namespace compare
