// The shapes that ask something, written as texts.
#include "sources.hpp"

#include "questions.hpp"
#include "shapes.hpp"

namespace text {

namespace {

using namespace second;

// How often a shape comes in a round of draws: those whose trees or refusals are few among random
// texts are drawn by their own shapes.
const std::vector<std::string> ROUND = {
    "text", "tiny", "deep", "mixed", "past", "future", "shared", "loop-of-one", "not-chain",
    "doubling-chain", "heights-five", "heights-six", "far-position", "letters-at-the-edge",
    "entries-at-the-edge", "damaged-table", "several-wrong", "text", "tiny", "size-by-halving", "text",
    "size-by-lists",
};

std::string text_of(test_case c) {
    for (std::uint32_t& word : c.table) word &= 0xffffff; // a kind that can be written
    c.entry %= 65536, c.position %= 65536;
    return text_of_question(c);
}

} // namespace

std::string sound_text(std::size_t turn, random_source& r) {
    const std::string& shape = ROUND[turn % ROUND.size()];
    const test_case c = case_of_shape(shape, r);
    return shape == "text" ? c.text : text_of(c);
}

lines small_lines(random_source& r) {
    test_case c;
    random_question(c, r, 6, 6, ALL);
    if (c.prefix.empty()) c.prefix.push_back(std::uint32_t(r.below(8)));
    lines all;
    std::string rest = text_of(c);
    for (std::size_t end = rest.find('\n'); end != rest.npos; end = rest.find('\n'))
        all.push_back(rest.substr(0, end)), rest.erase(0, end + 1);
    return all;
}

std::string damaged_text(random_source& r) { return case_of_shape("damaged-text", r).text; }

} // namespace text
