// The letter view, the heights of a table, and refusals 1 to 5.
#include "rules.hpp"

#include <algorithm>

namespace second {

words view(words prefix, words loop, std::size_t position) {
    if (position < prefix.size()) return prefix.subspan(position);
    if (loop.empty()) return loop;
    return loop.subspan((position - prefix.size()) % loop.size());
}

bool setting::atom_holds(std::uint32_t atom, std::uint64_t position) const {
    return view(prefix, loop, position).front() >> atom & 1;
}

std::uint64_t setting::endless_count(std::size_t entry, std::uint64_t position) const {
    const std::uint64_t v = loop.size();
    const std::uint64_t repeats = prefix.size() + v * past[entries[entry].right];
    return std::max(position, repeats) + v - position;
}

namespace {

bool fits_kind_table(entry_fields e, std::size_t index) {
    switch (e.kind) {
    case ATOM: return e.left <= 31 && e.right == 0;
    case NOT: return e.left < index && e.right == 0;
    case OR: case AND: case SINCE: case UNTIL: return e.left < index && e.right < index;
    default: return false;
    }
}

// The number of nested operators of one kind in each entry. Parts have smaller indices, so they are
// worked out before they are asked for.
std::vector<std::uint32_t> heights(const std::vector<entry_fields>& entries, std::uint32_t counted) {
    std::vector<std::uint32_t> height;
    for (entry_fields e : entries) {
        std::uint32_t h = 0;
        if (e.kind != ATOM) h = height[e.left];
        if (e.kind >= OR) h = std::max(h, height[e.right]);
        height.push_back(h + (e.kind == counted));
    }
    return height;
}

std::vector<entry_fields> entries_of(words table) {
    std::vector<entry_fields> entries;
    for (std::uint32_t word : table) entries.push_back(entry_of(word));
    return entries;
}

} // namespace

std::uint32_t schedule_refusal(words prefix, words loop) {
    if (loop.empty()) return 1;
    if (prefix.size() + loop.size() > MAX_LETTERS) return 2; // lists that lie in memory: the sum cannot wrap
    return 0;
}

std::uint32_t table_refusal(words table) {
    if (table.empty() || table.size() > MAX_ENTRIES) return 3;
    const std::vector<entry_fields> entries = entries_of(table);
    for (std::size_t k = 0; k < entries.size(); ++k)
        if (!fits_kind_table(entries[k], k)) return 4;
    const auto past = heights(entries, SINCE), future = heights(entries, UNTIL);
    for (std::size_t k = 0; k < entries.size(); ++k)
        if (past[k] + future[k] > MAX_HEIGHTS) return 5;
    return 0;
}

setting setting_of(words prefix, words loop, words table) {
    std::vector<entry_fields> entries = entries_of(table);
    std::vector<std::uint32_t> past = heights(entries, SINCE);
    return {{prefix.begin(), prefix.end()}, {loop.begin(), loop.end()}, std::move(entries), std::move(past)};
}

} // namespace second
