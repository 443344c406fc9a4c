// Every valid tree of a tiny input, listed straight from the rule table; and the place where
// a list of words leaves the table.
//
// Nothing here comes from the reference: the letter, the heights, the rules and the form of a
// word are written again, plainly.
#pragma once

#include <cstddef>
#include <cstdint>
#include <map>
#include <optional>
#include <span>
#include <vector>

namespace second {

class enumerator {
public:
    using list = std::span<const std::uint32_t>;
    using tree = std::vector<std::uint32_t>;

    enumerator(list prefix, list loop, list table);

    // All trees of exactly so many words that prove the entry violated (0) or holding (1) at the position.
    // After too many trees it lists no more, and `full` is set.
    const std::vector<tree>& trees(std::size_t entry, std::uint64_t position, bool holding,
                                   std::size_t words);

    // The place of refusal 9: the length of the longest beginning that can go on in
    // some way, unless the list is a tree.
    std::optional<std::size_t> break_of(std::size_t entry, std::uint64_t position, list words) const;

    bool full = false;

private:
    // What must be proved of an entry at each position from one up to another.
    struct claim {
        std::size_t entry;
        std::uint64_t from, to; // `to` is not among them
        bool holding;
    };

    bool letter_has(std::uint32_t atom, std::uint64_t position) const;
    std::optional<std::vector<claim>> needs(unsigned rule, std::size_t entry, std::uint64_t i,
                                            std::uint64_t number) const;
    std::uint32_t word(unsigned rule, std::size_t entry, std::uint64_t number) const;
    std::vector<tree> rows(const std::vector<claim>& claims, std::size_t words);

    list prefix, loop, table;
    std::vector<unsigned> past;
    std::map<std::vector<std::uint64_t>, std::vector<tree>> known;
    std::size_t listed = 0;
};

} // namespace second
