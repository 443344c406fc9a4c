// How long the lent buffers are.
#pragma once

#include <cstddef>
#include <string>
#include <vector>

namespace compare {

struct length {
    std::string name;
    std::size_t numbers;
};

// Of a work slice: none, about as many as are needed, more. Those from index ENOUGH on are long enough.
std::vector<length> work_lengths();
inline constexpr std::size_t ENOUGH = 2;

// Of a tree buffer for a tree of so many words: none, about as many as are needed, as
// many as are always enough, more.
std::vector<length> room_lengths(std::size_t words);

} // namespace compare
