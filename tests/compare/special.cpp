// By the second program's meaning and sizes, one word past the limit.
#include "special.hpp"

#include "least.hpp"

namespace compare {

namespace {

using namespace second;

std::string number(std::uint32_t n) { return std::to_string(n); }

// Rivals of the same size.
void add_ties(std::vector<std::string>& found, const std::vector<std::uint32_t>& roots) {
    const std::uint32_t rule = node_of(roots.front()).rule;
    if (roots.size() > 1 && node_of(roots[1]).rule == rule)
        found.push_back("counts of rule " + number(rule) + " tie");
    const std::uint32_t last = node_of(roots.back()).rule;
    if (last != rule) found.push_back("rules " + number(rule) + " and " + number(last) + " tie");
}

// The least count with which the rule of a root has its first part; all that
// lies nearer is as the rule needs it.
std::uint32_t nearest(const setting& where, const meaning& truth, std::size_t entry, std::uint64_t i,
                      node_fields root) {
    const entry_fields e = where.entries[entry];
    const auto first_part = [&](std::uint32_t n) {
        switch (root.rule) {
        case 11: return truth.holds(e.right, i - n);
        case 12: return !truth.holds(e.left, i + 1 - n);
        case 14: return truth.holds(e.right, i + n);
        default: return !truth.holds(e.left, i + n - 1);
        }
    };
    std::uint32_t n = root.rule == 11 || root.rule == 14 ? 0 : 1;
    while (!first_part(n)) ++n;
    return n;
}

void add_witness(std::vector<std::string>& found, std::uint32_t rule, std::uint32_t further,
                 std::size_t lap) {
    const std::string name = "rule " + number(rule) + " takes a witness ";
    if (further > 0) found.push_back(name + "past the nearest");
    if (rule < 14) return;
    if (further >= lap) found.push_back(name + "a lap on");
    if (further >= 2 * lap) found.push_back(name + "two laps on");
}

} // namespace

const std::vector<std::string> SPECIALS = {
    "rules 5 and 6 tie", "rules 9 and 10 tie", "rules 12 and 13 tie", "rules 15 and 16 tie",
    "counts of rule 11 tie", "counts of rule 12 tie", "counts of rule 14 tie", "counts of rule 15 tie",
    "rule 11 takes a witness past the nearest", "rule 12 takes a witness past the nearest",
    "rule 14 takes a witness past the nearest", "rule 15 takes a witness past the nearest",
    "rule 14 takes a witness a lap on", "rule 14 takes a witness two laps on",
    "rule 15 takes a witness a lap on", "rule 15 takes a witness two laps on",
    "least size 4095", "least size 4096",
};

std::vector<std::string> specials_of(const test_case& c) {
    const setting where = setting_of(c.prefix, c.loop, c.table);
    const meaning truth(where);
    least best(where, truth, MAX_TREE + 1);
    std::vector<std::string> found;
    const std::uint64_t size = best.size(c.entry, c.position);
    if (size == MAX_TREE || size == MAX_TREE + 1) found.push_back("least size " + std::to_string(size));
    if (size > MAX_TREE) return found;
    const std::vector<std::uint32_t> roots = best.roots(c.entry, c.position);
    add_ties(found, roots);
    const node_fields root = node_of(roots.front());
    if (root.rule >= 11 && root.rule != 13 && root.rule != 16)
        add_witness(found, root.rule, root.number - nearest(where, truth, c.entry, c.position, root),
                    c.loop.size());
    return found;
}

} // namespace compare
