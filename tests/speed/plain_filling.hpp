// The filling of the work slice in plain C++: for each entry and position the verdict and the least
// size of a tree, cut off at 4,096.
#pragma once

// Every loop begins a line of the cache. Else where the linker happens to put the plain program would
// decide about up to half of its time.
#pragma GCC optimize("align-functions=64", "align-loops=64")

#include "rules.hpp"

namespace plain {

inline constexpr std::uint32_t CUT = 4096;      // stands for every size above 4,095
inline constexpr std::uint16_t HOLDING = 8192;  // more in a cell where the entry holds
inline constexpr std::size_t ROW = 512;         // cells an entry

// The size of a tree that proves the one verdict, or the other; no such tree is
// as good as one that is too large.
inline std::uint32_t pro(std::uint16_t cell) { return cell >= HOLDING ? cell - HOLDING : CUT; }
inline std::uint32_t con(std::uint16_t cell) { return cell >= HOLDING ? CUT : cell; }

// A schedule, a table and a position without refusals 1 to 5 and 7, with the heights of the entries.
struct question {
    question(second::words prefix, second::words loop, second::words table, std::size_t position);

    // How far the row of an entry goes, and from where on the entry repeats with the loop.
    std::size_t columns(std::size_t entry) const {
        return reach + loop.size() * (second::MAX_HEIGHTS - future[entry]);
    }
    std::size_t threshold(std::size_t entry) const { return prefix.size() + loop.size() * past[entry]; }

    second::words prefix, loop;
    std::size_t reach; // past the asked position and the prefix
    second::entry_fields entries[second::MAX_ENTRIES];
    std::uint8_t past[second::MAX_ENTRIES], future[second::MAX_ENTRIES];
};

// Fills the rows of all entries up to the asked one.
void fill(const question& q, std::size_t entry, std::uint16_t* work);

} // namespace plain
