// The tables.
#include "chains.hpp"

#include "questions.hpp"

#include <algorithm>

namespace stack {

using namespace second;

list chain(std::uint64_t kind, std::size_t back) {
    list table = {entry_word(ATOM, 0, 0)};
    for (std::size_t k = 1; k < MAX_ENTRIES; ++k)
        table.push_back(entry_word(kind, k - 1, kind == NOT ? 0 : k - std::min(k, back)));
    return table;
}

list chain_with(const std::set<std::size_t>& places, std::uint64_t kind, std::uint64_t next_kind) {
    list table = {entry_word(ATOM, 0, 0)};
    for (std::size_t k = 1; k < MAX_ENTRIES; ++k) {
        if (!places.contains(k)) table.push_back(entry_word(NOT, k - 1, 0));
        else table.push_back(entry_word(kind, k - 1, k - 1)), std::swap(kind, next_kind);
    }
    return table;
}

// A not adds a word, a pair of equal parts doubles them and adds one: 13 nots, eight pairs with a not after
// each of the first six, four nots.
list chain_of_4095_words() {
    list table = {entry_word(ATOM, 0, 0)};
    bool holds = false;
    const auto add_nots = [&](std::size_t count) {
        while (count-- > 0) table.push_back(entry_word(NOT, table.size() - 1, 0)), holds = !holds;
    };
    add_nots(13);
    for (std::size_t pair = 1; pair <= 8; ++pair) {
        const std::uint64_t both = holds ? AND : OR; // the kind that needs both parts
        table.push_back(entry_word(both, table.size() - 1, table.size() - 1));
        if (pair <= 6) add_nots(1);
    }
    add_nots(4);
    return table;
}

} // namespace stack
