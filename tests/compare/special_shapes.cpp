// Questions drawn so that a wrong finder or writer would take another tree.
#include "call_shapes.hpp"

#include "questions.hpp"

#include <algorithm>

namespace compare {

namespace {

using namespace second;

// A table in the making: atom 0, which holds everywhere, atom 1, which holds nowhere, and what is added.
struct making {
    static constexpr std::size_t ALWAYS = 0, NEVER = 1;
    std::vector<std::uint32_t> table = {entry_word(ATOM, 0, 0), entry_word(ATOM, 1, 0)};

    std::size_t add(std::uint64_t kind, std::size_t left, std::size_t right) {
        table.push_back(entry_word(kind, left, right));
        return table.size() - 1;
    }

    std::size_t nots(std::size_t over, std::size_t count) {
        while (count-- > 0) over = add(NOT, over, 0);
        return over;
    }

    // Holds everywhere, with 2^(doublings + 1) - 1 words.
    std::size_t dear(std::size_t doublings) {
        std::size_t entry = ALWAYS;
        while (doublings-- > 0) entry = add(AND, entry, entry);
        return entry;
    }

    // Cheap, and holds for the first time in the loop's first letter so many laps on, or in its second
    // letter. Atom 2 + k holds in the loop's letter k; each since hides what it waits for a lap longer.
    std::size_t laps_on(std::size_t laps) {
        if (laps == 0) return add(ATOM, 3, 0);
        std::size_t entry = add(ATOM, 2 + laps, 0);
        while (laps-- > 0) {
            const std::size_t letter = add(ATOM, 2 + laps, 0), waits = add(SINCE, ALWAYS, entry);
            entry = add(AND, letter, waits);
        }
        return entry;
    }
};

// The table's last entry, asked at a position.
test_case question(test_case c, const making& m, std::size_t position) {
    c.what = call::write, c.work = MIN_WORK, c.room = MAX_TREE;
    c.table = m.table, c.entry = c.table.size() - 1, c.position = position;
    return c;
}

// A witness at once that is dear, and a cheap one later, up to two laps on: of an until that
// holds, or of one that is violated.
test_case later_witness(random_source& r) {
    test_case c;
    const std::size_t laps = r.below(3);
    c.prefix.assign(r.below(3), 1);
    c.loop.assign(r.between(3, 5), 1);
    for (std::size_t k = 0; k < 3; ++k) c.loop[k] |= 4u << k;
    making m;
    const std::size_t costly = m.dear(8 + laps), cheap = m.laps_on(laps);
    const std::size_t witness = r.one_in(2) ? m.add(OR, cheap, costly) : m.add(OR, costly, cheap);
    if (r.one_in(2)) {
        m.add(UNTIL, making::ALWAYS, witness);
    } else { // a list that grows dearer with each place, or rule 16 would be less than any witness
        const std::size_t list = m.add(SINCE, making::ALWAYS, m.add(SINCE, making::ALWAYS, making::NEVER));
        m.add(UNTIL, m.nots(witness, 1), list);
    }
    return question(c, m, r.below(c.prefix.size() + 1));
}

// The same backward: the cheap witness comes round with the loop.
test_case earlier_witness(random_source& r) {
    test_case c;
    c.prefix.assign(r.below(4), 1);
    c.loop.assign(r.between(2, 6), 1);
    c.loop[0] |= 4;
    making m;
    const std::size_t costly = m.dear(6), cheap = m.add(ATOM, 2, 0), witness = m.add(OR, costly, cheap);
    if (r.one_in(2)) m.add(SINCE, making::ALWAYS, witness);
    else m.add(SINCE, m.nots(witness, 1), making::NEVER);
    return question(c, m, r.between(40, MAX_POSITION));
}

// An entry that has one verdict at one place, before the loop comes again, and the other at all other
// places, with trees of so many words.
std::size_t at_one_place(making& m, test_case& c, std::uint32_t atom, std::size_t place, std::size_t words,
                         bool holds) {
    const bool turned = words % 2 == 0; // by an odd number of nots
    std::size_t k = 0;
    for (auto* letters : {&c.prefix, &c.loop})
        for (std::uint32_t& letter : *letters)
            if (((k++ == place) == holds) != turned) letter |= 1u << atom;
    return m.nots(m.add(ATOM, atom, 0), words - 1);
}

// Rule 12 saves as many members as its first part has words.
test_case rules_12_and_13(random_source& r) {
    test_case c;
    const std::size_t place = r.between(1, 8);
    c.prefix.assign(place + 1, 1);
    c.loop.assign(r.between(1, 3), 1);
    making m;
    m.add(SINCE, at_one_place(m, c, 2, place, place, false), making::NEVER);
    return question(c, m, r.between(place, MAX_POSITION));
}

// Rule 15 saves as many members as its first part has words.
test_case rules_15_and_16(random_source& r) {
    test_case c;
    c.prefix.assign(r.below(6), 1);
    c.loop.assign(r.between(2, 6), 1);
    const std::size_t last = c.prefix.size() + c.loop.size() - 1;
    const std::size_t words = r.between(1, last), place = last - words;
    making m;
    m.add(UNTIL, at_one_place(m, c, 2, place, words, false), making::NEVER);
    return question(c, m, r.below(std::min(place, c.prefix.size()) + 1));
}

// Two witnesses, the further cheaper by as many words as it lies further off. With so much prefix behind
// them rules 13 and 16 are no rivals.
test_case tied_counts(random_source& r) {
    test_case c;
    const bool back = r.one_in(2), holds = r.one_in(2);
    const std::size_t apart = r.between(1, 6), low = r.between(3, 8), high = low + apart;
    const std::size_t near = back ? high : low, far = back ? low : high;
    c.prefix.assign(high + apart + r.between(5, 16), 1);
    c.loop.assign(r.between(1, 3), 1);
    making m;
    const std::size_t dearer = at_one_place(m, c, 2, near, 1 + apart, holds);
    const std::size_t cheaper = at_one_place(m, c, 3, far, 1, holds);
    const std::size_t witness = m.add(holds ? OR : AND, dearer, cheaper);
    m.add(back ? SINCE : UNTIL, holds ? making::ALWAYS : witness, holds ? witness : making::NEVER);
    return question(c, m, back ? r.between(near, MAX_POSITION) : r.below(near + 1));
}

} // namespace

std::vector<call_shape> special_shapes(std::size_t draws) {
    return {
        {"later-witness", draws, later_witness},     {"earlier-witness", draws, earlier_witness},
        {"rules-12-and-13", draws, rules_12_and_13}, {"rules-15-and-16", draws, rules_15_and_16},
        {"tied-counts", draws, tied_counts},
    };
}

} // namespace compare
