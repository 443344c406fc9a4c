// kit [SEED]: the C++ kit against the calls of chickvessel.h, and its tree view against a recursion; on trees
// that check accepts and on any words.
#define _GLIBCXX_ASSERTIONS // every index into a span is tested
#include "library.hpp"
#include "own_walk.hpp"
#include "shapes.hpp"
#include "tally.hpp"

#include <iostream>

namespace {

using namespace second;

constexpr std::size_t EACH = 150;

chickvessel::question question_of(const test_case& c) {
    return {.prefix = c.prefix, .loop = c.loop, .table = c.table, .entry = c.entry, .position = c.position};
}

answer plain(const chickvessel::answer& a) {
    return {std::uint32_t(a.refused), std::uint32_t(a.place), std::uint32_t(a.verdict),
            std::uint32_t(a.size)};
}

// The kit's four calls answer what the library's do, and leave the same words.
void hold_calls(const test_case& c, tally& t) {
    const chickvessel::question q = question_of(c);
    std::vector<std::uint16_t> work(c.work, 7);
    std::vector<std::uint32_t> one(c.room, 7), two(c.room, 7);
    const auto expect = [&](const chickvessel::answer& a, const answer& b, const char* call) {
        if (plain(a) != b || bool(a) != (b.number == 0))
            throw failure(std::string("kit: ") + call + ": " + text_of(plain(a)) + "\n" + line_of(c));
        t.met_refusal(b.number), t.met(call);
    };
    expect(chickvessel::truth(q, work),
           library::truth(c.prefix, c.loop, c.table, c.entry, c.position, work), "truth");
    expect(chickvessel::find(q, work),
           library::find(c.prefix, c.loop, c.table, c.entry, c.position, work), "find");
    expect(chickvessel::write(q, work, one),
           library::write(c.prefix, c.loop, c.table, c.entry, c.position, work, two), "write");
    expect(chickvessel::check(q, c.tree),
           library::check(c.prefix, c.loop, c.table, c.entry, c.position, c.tree), "check");
    if (one != two) throw failure("kit: write leaves other words\n" + line_of(c));
}

// The view of any words ends, with no more nodes than words, and the way down never leaves the table.
std::size_t walk_any(const chickvessel::question& q, words tree, const test_case& c) {
    std::size_t nodes = 0;
    for (const chickvessel::node& n : chickvessel::tree_view(q, tree)) {
        if (n.index != nodes++ || nodes > tree.size() || n.depth >= 32 || n.entry >= q.table.size())
            throw failure("kit: view astray\n" + line_of(c));
    }
    return nodes;
}

void hold_view(const test_case& c, tally& t, random_source& r) {
    const chickvessel::question q = question_of(c);
    std::vector<std::uint32_t> tree = c.tree;
    if (library::check(c.prefix, c.loop, c.table, c.entry, c.position, tree).number == 0) {
        const std::vector<chickvessel::node> nodes = kit::own_walk(q, tree);
        std::size_t k = 0, deepest = 0;
        for (const chickvessel::node& n : chickvessel::tree_view(q, tree)) {
            if (k == nodes.size() || kit::line_of(n) != kit::line_of(nodes[k]))
                throw failure("kit: the view has " + kit::line_of(n) + "\n" + line_of(c));
            deepest = std::max(deepest, n.depth), ++k, t.met_root(tree[n.index]);
        }
        if (k != tree.size()) throw failure("kit: the view ends early\n" + line_of(c));
        t.met("trees walked"), t.met("nodes", k);
        if (deepest == 31) t.met("trees of 32 levels");
        damage_tree(tree, std::max<std::size_t>(c.loop.size(), 1), r);
    }
    if (walk_any(q, tree, c) < tree.size()) t.met("words that are no tree");
    // Any words, with a question that is none.
    test_case wild = c;
    for (std::uint32_t& word : wild.table) word = r.one_in(3) ? std::uint32_t(r.next()) : word;
    wild.entry = r.pick({0, c.entry, c.table.size(), UINT64_MAX});
    wild.position = r.pick({0, 255, UINT64_MAX});
    for (std::uint32_t& word : tree) word = r.one_in(4) ? std::uint32_t(r.next()) & 0x1fffffff : word;
    walk_any(question_of(wild), tree, c);
    t.met("wild words");
}

// A chain of 32 nots, for the deepest way down.
void deepest(tally& t, random_source& r) {
    test_case c;
    c.what = call::check, c.loop = {1}, c.table = {chickvessel::atom(0)}, c.entry = 31;
    while (c.table.size() < 32) c.table.push_back(chickvessel::not_(std::uint32_t(c.table.size() - 1)));
    for (std::uint32_t k = 31; k > 0; --k) c.tree.push_back(word_of({k % 2 == 0 ? 3u : 4u, 0, 0}));
    c.tree.push_back(word_of({1, 0, 0}));
    hold_view(c, t, r);
}

} // namespace

int main(int argc, char** argv) try {
    random_source r(argc == 2 ? std::stoull(argv[1]) : 1);
    tally t("kit",
            {"truth", "find", "write", "check", "trees walked", "nodes", "trees of 32 levels",
             "words that are no tree", "wild words"},
            {1, 2, 3, 4, 5, 6, 7, 8, 9, 10, 11, 12},
            {1, 2, 3, 4, 5, 6, 7, 8, 9, 10, 11, 12, 13, 14, 15, 16});
    deepest(t, r);
    for (const std::string& shape : shape_names()) {
        if (shape == "view" || shape == "text" || shape == "damaged-text" || shape == "and-chain") continue;
        for (std::size_t k = 0; k < EACH; ++k) {
            test_case c = case_of_shape(shape, r);
            if (c.what == call::write && c.expected.number == 0) c.tree = c.written;
            hold_calls(c, t), hold_view(c, t, r);
        }
    }
    std::cout << t.line() << "\n";
} catch (const std::exception& e) {
    std::cerr << "kit: FAILED\n" << e.what() << "\n";
    return 1;
}
