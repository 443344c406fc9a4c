// A table, letters and a position as a write call.
#include "asked.hpp"

namespace speed {

using namespace second;

test_case question(const list& table, const list& letters, std::size_t prefix, std::size_t position) {
    test_case c;
    c.what = call::write, c.table = table, c.entry = table.size() - 1, c.position = position;
    c.work = MIN_WORK, c.room = MAX_TREE;
    for (std::size_t k = 0; k < letters.size(); ++k) (k < prefix ? c.prefix : c.loop).push_back(letters[k]);
    return c;
}

} // namespace speed
