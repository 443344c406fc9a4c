// What a node of a tree says, in words.
#pragma once

#include "chickvessel.hpp"

#include <cstdio>

namespace client {

// Prints "violated at 0: until, because at half-hour 2 ..", without a newline.
void because(const chickvessel::node& n, std::FILE* to);

} // namespace client
