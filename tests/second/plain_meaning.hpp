// Truth by the definition's own words, an until looking for its place over a long but
// fixed stretch. For small inputs only.
#pragma once

#include "rules.hpp"

#include <map>

namespace second {

class plain_meaning {
public:
    // Twelve laps past the prefix: far more than any value of a small input waits for.
    plain_meaning(words prefix, words loop, words table)
        : prefix(prefix), loop(loop), table(table), stretch(prefix.size() + 12 * loop.size()) {}

    bool holds(std::size_t entry, std::uint64_t i) {
        const auto key = std::pair(entry, i);
        if (const auto at = known.find(key); at != known.end()) return at->second;
        return known[key] = judge(entry_of(table[entry]), i);
    }

private:
    bool judge(entry_fields e, std::uint64_t i) {
        switch (e.kind) {
        case ATOM: return letter(i) & 1u << e.left;
        case NOT: return !holds(e.left, i);
        case OR: return holds(e.left, i) || holds(e.right, i);
        case AND: return holds(e.left, i) && holds(e.right, i);
        case SINCE:
            // Right at some j <= i, and left at all k with j < k <= i.
            for (std::uint64_t j = i + 1; j-- > 0;) {
                if (holds(e.right, j)) return true;
                if (!holds(e.left, j)) return false;
            }
            return false;
        default:
            // Right at some j >= i, and left at all k with i <= k < j.
            for (std::uint64_t j = i; j < i + stretch; ++j) {
                if (holds(e.right, j)) return true;
                if (!holds(e.left, j)) return false;
            }
            return false;
        }
    }

    std::uint32_t letter(std::uint64_t i) const {
        while (i >= prefix.size() + loop.size()) i -= loop.size();
        return i < prefix.size() ? prefix[i] : loop[i - prefix.size()];
    }

    words prefix, loop, table;
    const std::uint64_t stretch;
    std::map<std::pair<std::size_t, std::uint64_t>, bool> known;
};

} // namespace second
