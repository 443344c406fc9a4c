// Sound texts, and texts damaged at random, from the shapes of the second program.
#pragma once

#include "traps.hpp"

namespace text {

// A text whose lines are all right, whatever its question earns. Each shape is drawn
// in turn; `turn` counts the draws.
std::string sound_text(std::size_t turn, second::random_source& r);

// The lines of a small sound text that earns no refusal but perhaps 6, 7 or 11: what a trap is made from.
lines small_lines(second::random_source& r);

// A sound text with one or two random damages.
std::string damaged_text(second::random_source& r);

} // namespace text
