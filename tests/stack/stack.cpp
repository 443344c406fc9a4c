// stack: how much stack the library's calls take, and that it is no more than
// a fibre of an editor script has.
#include "deep.hpp"
#include "painted.hpp"

#include "library.hpp"

#include <algorithm>
#include <iomanip>
#include <iostream>

namespace {

using namespace stack;
using second::call;

constexpr std::size_t FIBRE = 16384;

// A call with buffers to lend.
struct lent_call {
    explicit lent_call(const second::test_case& c) : c(c), work(c.work), tree(c.room) {}

    second::answer make() {
        switch (c.what) {
        case call::truth: return library::truth(c.prefix, c.loop, c.table, c.entry, c.position, work);
        case call::find: return library::find(c.prefix, c.loop, c.table, c.entry, c.position, work);
        case call::write: return library::write(c.prefix, c.loop, c.table, c.entry, c.position, work, tree);
        default: return library::check(c.prefix, c.loop, c.table, c.entry, c.position, c.tree);
        }
    }

    const second::test_case& c;
    std::vector<std::uint16_t> work;
    std::vector<std::uint32_t> tree;
};

// The bytes that a call takes, with the few that it takes to get there. A call that answers
// something else would be no measure.
std::size_t depth_of_call(painted_stack& on, const second::test_case& c) {
    second::answer got;
    lent_call lent(c);
    const std::size_t depth = on.depth_of([&] { got = lent.make(); });
    if (got != c.expected) throw std::runtime_error("another answer to\n" + line_of(c));
    return depth;
}

void print_row(const std::string& name, std::size_t depth, const std::string& of) {
    std::cout << "    " << std::left << std::setw(48) << name << std::right << std::setw(6) << depth << of
              << "\n";
}

// The tree that a call reads or writes, if any.
const std::vector<std::uint32_t>& tree_of(const second::test_case& c) {
    return c.what == call::check ? c.tree : c.written;
}

// The depth of the deepest call of a group; prints a row for it.
std::size_t depth_of_group(painted_stack& on, const group& g) {
    std::size_t deepest = 0, answered = 0, longest = 0, nodes = 0;
    for (const second::test_case& c : g.calls) {
        deepest = std::max(deepest, depth_of_call(on, c));
        answered += c.expected.number == 0;
        const std::vector<std::uint32_t>& tree = tree_of(c);
        longest = std::max(longest, tree.size());
        nodes += std::size_t(std::ranges::count_if(
            tree, [](std::uint32_t word) { return second::node_of(word).rule == 16; }));
    }
    std::string row =
        "   calls " + std::to_string(g.calls.size()) + ", not refused " + std::to_string(answered);
    if (longest > 0)
        row += ", words of a tree to " + std::to_string(longest) + ", nodes of rule 16 " +
               std::to_string(nodes);
    print_row(g.name, deepest, row);
    return deepest;
}

// The depth of the deepest of all groups.
std::size_t depth_of_all(painted_stack& on, const std::string& name, const std::vector<group>& groups) {
    std::cout << name << "\n";
    std::size_t deepest = 0;
    for (const group& g : groups) deepest = std::max(deepest, depth_of_group(on, g));
    print_row(name + ", at most", deepest, " of " + std::to_string(FIBRE));
    return deepest;
}

// A measure without the largest tree would be no measure.
void insist_on_the_largest_tree(const std::vector<group>& groups) {
    for (const group& g : groups)
        for (const second::test_case& c : g.calls)
            if (c.expected.number == 0 && tree_of(c).size() == second::MAX_TREE &&
                c.table.size() == second::MAX_ENTRIES)
                return;
    throw std::runtime_error("no tree of " + std::to_string(second::MAX_TREE) + " words over " +
                             std::to_string(second::MAX_ENTRIES) + " entries");
}

} // namespace

int main() try {
    painted_stack on;
    std::cout << "bytes of stack\n";
    print_row("an empty function", on.depth_of([] {}), "");
    std::string too_deep;
    const auto measure = [&](call what, const std::vector<group>& groups) {
        if (what == call::write || what == call::check) insist_on_the_largest_tree(groups);
        if (depth_of_all(on, name_of(what), groups) > FIBRE) too_deep += " " + name_of(what);
    };
    for (call what : {call::truth, call::find, call::write}) measure(what, deep_lent_calls(what));
    measure(call::check, deep_checks());
    if (!too_deep.empty())
        throw std::runtime_error("more than " + std::to_string(FIBRE) + " bytes of stack:" + too_deep);
} catch (const std::exception& e) {
    std::cout.flush();
    std::cerr << "stack: FAILED\n" << e.what() << "\n";
    return 1;
}
