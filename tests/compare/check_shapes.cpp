// Questions of all shapes, with a valid tree where there can be one.
#include "call_shapes.hpp"

#include "draws.hpp"
#include "questions.hpp"
#include "shapes.hpp"

namespace compare {

namespace {

using namespace second;

constexpr std::size_t DRAWS = 320, DRAWS_OF_AND_CHAINS = 8;

bool refused_with_any_tree(const test_case& c) {
    return check(c.prefix, c.loop, c.table, c.entry, c.position, {}).number != 9;
}

test_case with_tree(test_case c, random_source& r) {
    if (c.what == call::check) return c;
    c.what = call::check, c.work = c.room = 0, c.written.clear();
    if (refused_with_any_tree(c)) c.tree.resize(r.pick({0, 1, 4095, 4096}));
    else c.tree = random_tree(c, r);
    return c;
}

// A witness so far off that its position does not fit into 16 bits, written as if it were counted in them.
test_case far_witness(random_source& r) {
    test_case c;
    c.what = call::check;
    c.loop.assign(r.between(1, 3), 3);
    c.table = {entry_word(ATOM, 0, 0), entry_word(ATOM, 1, 0), entry_word(UNTIL, 0, 1),
               entry_word(NOT, 2, 0)};
    c.entry = r.between(2, 3), c.position = r.between(1, MAX_POSITION);
    const std::uint32_t i = std::uint32_t(c.position), n = 65536 - std::uint32_t(r.between(1, c.position));
    if (c.entry == 3) c.tree.push_back(word_of({4, 0, 0}));
    c.tree.insert(c.tree.end(), {word_of({14, 0, n}), word_of({1, 1, (i + n) % 65536}), word_of({1, 0, i})});
    return c;
}

} // namespace

std::vector<call_shape> check_shapes() {
    std::vector<call_shape> shapes = {{"far-witness", share_of(DRAWS), far_witness}};
    for (const call_shape& asks : shapes_that_ask(share_of(DRAWS), share_of(DRAWS_OF_AND_CHAINS)))
        shapes.push_back(
            {asks.name, asks.draws, [asks](random_source& r) { return with_tree(asks.draw(r), r); }});
    return shapes;
}

} // namespace compare
