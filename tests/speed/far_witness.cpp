// Rule 14 over least trees.
#include "far_witness.hpp"

#include "least.hpp"
#include "shapes.hpp"

#include <stdexcept>

namespace speed {

using namespace second;

test_case far_witness(const std::string& question, std::size_t words) {
    test_case c = case_of("check | " + question + " 0 | - | 0 0 1 0 | | far witness");
    const setting where = setting_of(c.prefix, c.loop, c.table);
    const meaning truth(where);
    least best(where, truth);
    const entry_fields until = where.entries[c.entry];
    std::size_t n = 0, members = 0;
    while (1 + best.size(until.right, n + 1) + members + best.size(until.left, n) <= words)
        members += best.size(until.left, n), ++n;
    c.tree = {word_of({14, 0, std::uint32_t(n)})};
    const auto add = [&](std::size_t entry, std::size_t position) {
        const std::vector<std::uint32_t>& part = best.tree(entry, position);
        c.tree.insert(c.tree.end(), part.begin(), part.end());
    };
    add(until.right, n);
    for (std::size_t position = 0; position < n; ++position) add(until.left, position);
    answer_case(c);
    if (c.expected.number != 0) throw std::runtime_error("no valid tree:\n" + line_of(c));
    return c;
}

} // namespace speed
