// Random check calls: each one drawn, then changed in every way, against the reference's answers.
#include "comparison.hpp"

#include "call_shapes.hpp"
#include "changes.hpp"
#include "draws.hpp"
#include "hold.hpp"
#include "shapes.hpp"
#include "tally.hpp"

namespace compare {

namespace {

using namespace second;

constexpr std::uint64_t LEAST_CALLS = 100000;

std::string size_class(std::size_t words) {
    if (words < 10) return "of 1 to 9 words";
    if (words < 100) return "of 10 to 99";
    if (words < 1000) return "of 100 to 999";
    return words < MAX_TREE ? "of 1000 to 4094" : "of 4095";
}

// In which way the words are no tree.
std::string break_class(const test_case& c) {
    const std::size_t place = c.expected.place;
    if (place == c.tree.size()) return "missing word";
    if (place == 0) return "wrong root";
    const answer before = check(c.prefix, c.loop, c.table, c.entry, c.position, words(c.tree).first(place));
    return before.number == 0 ? "word left over" : "wrong part";
}

tally everything_to_meet(const std::vector<change>& changes) {
    std::vector<std::string> must = {
        "calls", "prefix null", "loop null", "table null", "tree null", "entry the largest",
        "position the largest", "accepted", "accepted of 1 to 9 words", "accepted of 10 to 99",
        "accepted of 100 to 999", "accepted of 1000 to 4094", "accepted of 4095",
        "wrong root", "wrong part", "missing word", "word left over",
    };
    for (const change& made : changes) must.push_back(made.name);
    return tally("check", must, {1, 2, 3, 4, 5, 6, 7, 9, 10},
                 {1, 2, 3, 4, 5, 6, 7, 8, 9, 10, 11, 12, 13, 14, 15, 16});
}

void count(const test_case& c, tally& t) {
    t.met("calls");
    if (c.prefix.empty()) t.met("prefix null");
    if (c.loop.empty()) t.met("loop null");
    if (c.table.empty()) t.met("table null");
    if (c.tree.empty()) t.met("tree null");
    if (c.entry == SIZE_MAX) t.met("entry the largest");
    if (c.position == SIZE_MAX) t.met("position the largest");
    t.met_refusal(c.expected.number);
    if (c.expected.number == 0)
        t.met("accepted"), t.met("accepted " + size_class(c.tree.size())), t.met_root(c.tree[0]);
    if (c.expected.number == 9) t.met(break_class(c));
}

} // namespace

std::string check_calls(random_source r) {
    const std::vector<change> changes = check_changes();
    tally t = everything_to_meet(changes);
    std::uint64_t calls = 0;
    for (const call_shape& shape : check_shapes())
        for (std::size_t k = 0; k < shape.draws; ++k) {
            random_source own(r.next()); // a source a draw: none depends on those before it
            const test_case drawn = shape.draw(own);
            for (const change& made : changes) {
                test_case c = drawn;
                if (!made.make(c, own)) continue;
                c.where = "check of shape " + shape.name + ", " + made.name;
                answer_case(c);
                hold(c, 0);
                count(c, t), t.met(made.name), ++calls;
            }
        }
    if (calls < share_of(LEAST_CALLS)) throw failure("check: only " + std::to_string(calls) + " calls");
    return t.line();
}

} // namespace compare
