// Truth by unrolling against truth by the definition's words, on small inputs of all kinds.
#include "parts.hpp"

#include "draws.hpp"
#include "plain_meaning.hpp"
#include "shapes.hpp"

namespace second {

std::string test_meaning(random_source r) {
    tally t("meaning",
            {"inputs", "holds", "violated", "until holds", "until violated", "since holds", "since violated"},
            {}, {});
    std::vector<std::uint16_t> work(MIN_WORK);
    for (std::size_t k = 0; k < share_of(6000); ++k) {
        random_source own(r.next());
        test_case c = case_of_shape(k % 3 == 0 ? "heights-five" : k % 3 == 1 ? "tiny" : "loop-of-one", own);
        c.what = call::truth, c.work = MIN_WORK, c.room = 0;
        engine e(c.prefix, c.loop, c.table);
        plain_meaning plain(c.prefix, c.loop, c.table);
        for (c.entry = 0; c.entry < c.table.size(); ++c.entry)
            for (c.position = 0; c.position < 30; c.position += own.between(1, 4)) {
                c.expected = {0, 0, plain.holds(c.entry, c.position) ? HOLDS : VIOLATED, 0};
                if (e.truth(c.entry, c.position, work) != c.expected)
                    throw failure("the definition's words say:\n" + line_of(c));
                const std::uint32_t kind = entry_of(c.table[c.entry]).kind;
                const std::string verdict = c.expected.verdict == HOLDS ? "holds" : "violated";
                t.met(verdict);
                if (kind == UNTIL) t.met("until " + verdict);
                if (kind == SINCE) t.met("since " + verdict);
            }
        t.met("inputs");
    }
    return t.line();
}

} // namespace second
