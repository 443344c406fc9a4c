// Tables of 32 entries, each made from the one before it: the walk, the writer and the height
// routine go down an entry at a time.
#pragma once

#include <cstddef>
#include <cstdint>
#include <set>
#include <vector>

namespace stack {

using list = std::vector<std::uint32_t>;

// Each entry made from the one before it, and from the one so many before.
list chain(std::uint64_t kind, std::size_t back);

// Nots, and at the given places operators of time over the entry before them; the two kinds take turns.
list chain_with(const std::set<std::size_t>& places, std::uint64_t kind, std::uint64_t next_kind);

// On a loop of the letter 0, a least tree of exactly 4,095 words.
list chain_of_4095_words();

} // namespace stack
