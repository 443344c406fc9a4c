// Each chain asked at its last entry.
#include "deep.hpp"

#include "chains.hpp"

namespace stack {

namespace {

using namespace second;

test_case question(const list& loop, const list& table, std::size_t position) {
    test_case c;
    c.what = call::write, c.loop = loop, c.table = table, c.entry = table.size() - 1, c.position = position;
    c.work = MIN_WORK, c.room = MAX_TREE;
    return c;
}

group chains_of_pairs() {
    return {"and, or of (k - 1, k - 1) and (k - 1, k - 2)",
            {question({1}, chain(OR, 1), 0), question({0}, chain(AND, 1), 0),
             question({1}, chain(OR, 2), 0), question({0}, chain(AND, 2), 0)}};
}

// One operator at every place in turn: nots down to it, and nots below it, which the
// heights of a node of rule 16 follow.
group one_operator(const std::string& name, std::uint64_t kind) {
    group g{name, {}};
    for (std::size_t place = 1; place < MAX_ENTRIES; ++place)
        for (std::uint32_t letter : {0u, 1u})
            g.calls.push_back(question({letter}, chain_with({place}, kind, kind), 0));
    return g;
}

// As many operators as the heights allow: at the bottom, at the top, and spread.
group five_operators(const std::string& name, std::uint64_t kind, std::uint64_t next_kind) {
    group g{name, {}};
    for (const std::set<std::size_t>& places :
         {std::set<std::size_t>{1, 2, 3, 4, 5}, {27, 28, 29, 30, 31}, {6, 12, 18, 24, 30}, {2, 3, 4, 5, 31}})
        for (const list& loop : {list{0}, list{1}, list{0, 1}, list{0, 0, 0}, list(MAX_LETTERS, 0)})
            for (std::size_t position : {0, 3, 255})
                g.calls.push_back(question(loop, chain_with(places, kind, next_kind), position));
    return g;
}

} // namespace

std::vector<group> deep_questions() {
    return {
        {"not(k - 1)", {question({1}, chain(NOT, 1), 0), question({0}, chain(NOT, 1), 255)}},
        chains_of_pairs(),
        one_operator("one until among nots", UNTIL),
        one_operator("one since among nots", SINCE),
        five_operators("five untils among nots", UNTIL, UNTIL),
        five_operators("five sinces among nots", SINCE, SINCE),
        five_operators("until and since by turns among nots", UNTIL, SINCE),
        {"nots and pairs, 4095 words",
         {question({0}, chain_of_4095_words(), 0), question({0}, chain_of_4095_words(), 255)}},
        {"six untils at the top, refused",
         {question({1}, chain_with({26, 27, 28, 29, 30, 31}, UNTIL, UNTIL), 0)}},
    };
}

} // namespace stack
