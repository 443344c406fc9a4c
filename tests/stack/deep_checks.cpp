// The deep questions with their least trees, and trees that are larger or damaged.
#include "deep.hpp"

#include "chains.hpp"
#include "draws.hpp"
#include "shapes.hpp"

namespace stack {

namespace {

using namespace second;

// With the least tree, or no words where the question is refused; those whose tree is too large are left out.
group with_least_trees(const group& questions) {
    group g{questions.name, {}};
    for (test_case c : questions.calls) {
        answer_case(c);
        if (c.expected.number == 11) continue;
        c.what = call::check, c.work = c.room = 0, c.tree.swap(c.written);
        answer_case(c);
        g.calls.push_back(c);
    }
    return g;
}

// An until over a chain of nots, with a witness as far off as a tree of 4,095 words can prove.
group largest_tree() {
    test_case c;
    c.what = call::check, c.loop = {1};
    c.table = chain_with({MAX_ENTRIES - 1}, UNTIL, UNTIL), c.entry = MAX_ENTRIES - 1;
    const std::size_t below = MAX_ENTRIES - 2, each = below + 1, n = (MAX_TREE - 1) / each - 1;
    engine parts(c.prefix, c.loop, c.table);
    std::vector<std::uint16_t> work(MIN_WORK);
    list part(each);
    c.tree = {word_of({14, 0, std::uint32_t(n)})};
    const auto add = [&](std::size_t position) {
        parts.write(below, position, work, part);
        c.tree.insert(c.tree.end(), part.begin(), part.end());
    };
    add(n);
    for (std::size_t position = 0; position < n; ++position) add(position);
    answer_case(c);
    return {"the largest tree over 30 nots", {c}};
}

} // namespace

std::vector<group> deep_checks() {
    std::vector<group> groups;
    for (const group& questions : deep_questions()) groups.push_back(with_least_trees(questions));
    groups.insert(groups.end(), {largest_tree(), random_group("valid-tree", share_of(200)),
                                 random_group("damaged-tree", share_of(200)),
                                 random_group("long-tree", share_of(200))});
    return groups;
}

} // namespace stack
