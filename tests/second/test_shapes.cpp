// Random cases of all shapes: the printed line read back, the buffers, and the answer against the judges.
#include "parts.hpp"

#include "draws.hpp"
#include "enumerate.hpp"
#include "judges.hpp"
#include "shapes.hpp"

namespace second {

namespace {

constexpr std::size_t EACH = 1000;

void judge(const test_case& c, tally& t) {
    const auto fail = [&](const std::string& what) { throw failure(what + "\n" + line_of(c)); };
    if (case_of(line_of(c)) != c) fail("read back as another case");
    const program reference{truth, find, write, check, view, explain};
    if (const std::string d = difference(c, reference, std::uint32_t(c.position * 77)); !d.empty()) fail(d);
    if (c.what == call::explain) {
        if (judged_output(c.text) != c.output) fail("the text's judge says\n" + judged_output(c.text));
        if (c.output.starts_with("refused=")) t.met_refusal(std::uint32_t(std::stoul(c.output.substr(8))));
        return;
    }
    if (c.what == call::view) {
        const words list = c.position < c.prefix.size() ? c.prefix : c.loop;
        if (c.first != judged_first(c) || c.count != list.size() - c.first)
            fail("the view's judge begins at " + std::to_string(judged_first(c)));
        return;
    }
    const answer a = judged_answer(c);
    if (a != c.expected) fail("the judge says " + text_of(a));
    t.met_refusal(a.number);
    if (c.what == call::write && a.number == 0) {
        if (enumerator(c.prefix, c.loop, c.table).break_of(c.entry, c.position, c.written))
            fail("the words written are no tree");
        t.met_root(c.written[0]);
    }
    if (c.what == call::check && a.number == 0)
        t.met(c.tree.size() > 4000 ? "trees accepted, over 4,000 words" : "trees accepted, smaller");
    if (a.size == 4095) t.met("least size 4,095");
    if (a.number == 11 && exact_size(c) == 4096) t.met("least size 4,096");
}

} // namespace

std::string test_shapes(random_source r) {
    std::vector<std::string> must = shape_names();
    must.insert(must.end(), {"trees accepted, over 4,000 words", "trees accepted, smaller",
                             "least size 4,095", "least size 4,096"});
    tally t("shapes", must, {1, 2, 3, 4, 5, 6, 7, 8, 9, 10, 11, 12, 13, 14},
            {1, 2, 3, 4, 5, 6, 7, 8, 9, 10, 11, 12, 13, 14, 15, 16});
    for (const std::string& shape : shape_names())
        for (std::size_t k = 0; k < share_of(EACH); ++k) {
            random_source own(r.next());
            judge(case_of_shape(shape, own), t);
            t.met(shape);
        }
    return t.line();
}

} // namespace second
