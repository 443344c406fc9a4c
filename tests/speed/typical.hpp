// Typical questions: rules of six entries, together of all six kinds, on a day of eight
// letters. And the smallest questions.
#pragma once

#include "asked.hpp"

namespace speed {

// Every rule on every split of the day into prefix and loop, asked at one position.
std::vector<asked> typical_questions(std::size_t position);

// One entry and one letter, asked at the first position and at the last.
std::vector<asked> smallest_questions();

} // namespace speed
