// The meaning of every entry of a table on a schedule, as sequences of truth values without end.
#pragma once

#include "rules.hpp"

namespace second {

// A stem, and a part that comes again for ever after it.
struct endless {
    std::vector<char> stem, again;

    bool at(std::uint64_t position) const {
        return position < stem.size() ? stem[position] : again[(position - stem.size()) % again.size()];
    }

    // Is `value` met at some place from `position` on?
    bool comes(bool value, std::uint64_t position) const;
};

class meaning {
public:
    explicit meaning(const setting& where);

    bool holds(std::size_t entry, std::uint64_t position) const { return sequences[entry].at(position); }
    std::uint32_t verdict(std::size_t entry, std::uint64_t position) const {
        return holds(entry, position) ? HOLDS : VIOLATED;
    }

    // Does the entry get the verdict at some place from `position` on?
    bool comes(std::size_t entry, std::uint32_t verdict, std::uint64_t position) const {
        return sequences[entry].comes(verdict == HOLDS, position);
    }

private:
    std::vector<endless> sequences;
};

} // namespace second
