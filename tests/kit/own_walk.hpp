// A tree's nodes, by a recursion of the test's own, for trees that check accepts.
#pragma once

#include "chickvessel.hpp"
#include "rules.hpp"

#include <string>

namespace kit {

std::vector<chickvessel::node> own_walk(const chickvessel::question& q, second::words tree);

// The fields of a node in a line.
std::string line_of(const chickvessel::node& n);

} // namespace kit
