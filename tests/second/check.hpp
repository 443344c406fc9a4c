// The checker's walk: is a list of words a tree for an entry at a position, and if not, where does it break?
#pragma once

#include "rules.hpp"

namespace second {

struct walk_end {
    std::uint32_t verdict; // what the root claims, if the list is a tree; else 0
    std::uint32_t place;   // of the break, if it is none
};

walk_end walk(const setting& where, std::size_t entry, std::uint64_t position, words tree);

} // namespace second
