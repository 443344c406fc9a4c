// The least size and the least tree of an entry at a position, by trying every rule with every count.
#pragma once

#include "meaning.hpp"

#include <unordered_map>

namespace second {

// Sizes up to `limit` are exact; limit + 1 stands for everything above it.
class least {
public:
    least(const setting& where, const meaning& truth, std::uint64_t limit = MAX_TREE);

    std::uint64_t size(std::size_t entry, std::uint64_t position) {
        const std::uint32_t known = at(entry, position).size;
        return known != 0 ? known : search(entry, position);
    }

    // The words of the least tree; only where the size is within the limit.
    const std::vector<std::uint32_t>& tree(std::size_t entry, std::uint64_t position);

    // The root words of all trees of the least size, rules and counts rising; only
    // where the size is within the limit.
    std::vector<std::uint32_t> roots(std::size_t entry, std::uint64_t position);

private:
    struct part {
        std::size_t entry;
        std::uint64_t position;
    };

    struct cell {
        std::uint32_t verdict;
        std::uint32_t size = 0; // 0 is not known yet
    };

    template <class Visit>
    void candidates(std::size_t entry, std::uint64_t position, const std::uint64_t& bound, Visit visit);
    template <class Visit>
    void growing(std::uint32_t rule, std::size_t entry, std::uint64_t position, const std::uint64_t& bound,
                 Visit visit);

    cell& at(std::size_t entry, std::uint64_t position) {
        if (position >= cells[entry].size()) extend(entry, position);
        return cells[entry][position];
    }

    void extend(std::size_t entry, std::uint64_t position);
    std::uint64_t search(std::size_t entry, std::uint64_t position);
    std::vector<part> parts(std::uint32_t rule, std::size_t entry, std::uint64_t position,
                            std::uint64_t n) const;

    const setting& where;
    const meaning& truth;
    const std::uint64_t limit;
    std::vector<std::vector<cell>> cells;                                             // by entry and position
    std::vector<std::unordered_map<std::uint64_t, std::vector<std::uint32_t>>> trees; // by entry and position
};

} // namespace second
