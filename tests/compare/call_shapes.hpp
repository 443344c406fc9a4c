// Calls to begin with, before anything is changed in them.
#pragma once

#include "cases.hpp"
#include "random.hpp"

#include <functional>

namespace compare {

struct call_shape {
    std::string name;
    std::size_t draws; // how many of it a run makes
    std::function<second::test_case(second::random_source&)> draw;
};

// The shapes of the second program that ask something of an entry at a position. Chains of and(k - 1, k - 2),
// on which the heights alone take a call up to a tenth of a second, are drawn less often.
std::vector<call_shape> shapes_that_ask(std::size_t draws, std::size_t draws_of_and_chains);

// Check calls: all shapes that ask something, with a valid tree where there can be one, and those
// that only a checker can be asked.
std::vector<call_shape> check_shapes();

// Write calls whose least trees have rivals: special.hpp says which.
std::vector<call_shape> special_shapes(std::size_t draws);

} // namespace compare
