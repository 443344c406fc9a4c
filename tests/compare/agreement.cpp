// One verdict, one size, and a tree that check accepts, or the same refusal; whatever the work slice held.
#include "agreement.hpp"

#include "library.hpp"
#include "tally.hpp"

namespace compare {

namespace {

using namespace second;

struct answers {
    answer truth, found, written;
    std::vector<std::uint32_t> tree;
    bool operator==(const answers&) const = default;
};

// The answers with work slices that hold one number everywhere.
answers answers_with(const test_case& c, std::uint16_t held) {
    answers a{{}, {}, {}, std::vector<std::uint32_t>(MAX_TREE)};
    const auto work = [&] { return std::vector<std::uint16_t>(MIN_WORK, held); };
    auto one = work(), two = work(), three = work();
    a.truth = library::truth(c.prefix, c.loop, c.table, c.entry, c.position, one);
    a.found = library::find(c.prefix, c.loop, c.table, c.entry, c.position, two);
    a.written = library::write(c.prefix, c.loop, c.table, c.entry, c.position, three, a.tree);
    return a;
}

} // namespace

std::string agreement(const test_case& c) {
    const auto expect = [&](bool as_should, const std::string& what) {
        if (!as_should)
            throw failure(c.where + ": the library's calls do not agree: " + what + "\n" + line_of(c));
    };
    const answers a = answers_with(c, 0);
    for (std::uint16_t held : {0x0001, 0x1000, 0x2001, 0x3000, 0xffff})
        expect(answers_with(c, held) == a,
               "a work slice full of " + std::to_string(held) + " and one full of 0");
    expect(a.found == a.written, "find " + text_of(a.found) + ", write " + text_of(a.written));
    if (a.found.number == 11) {
        expect(a.truth.number == 0, "truth " + text_of(a.truth) + ", find 11");
        return "too large alike";
    }
    expect(a.truth == answer{a.found.number, 0, a.found.verdict, 0},
           "truth " + text_of(a.truth) + ", find " + text_of(a.found));
    if (a.found.number != 0) return "refused alike";
    const answer checked =
        library::check(c.prefix, c.loop, c.table, c.entry, c.position, words(a.tree).first(a.found.size));
    expect(checked == answer{0, 0, a.found.verdict, 0},
           "write " + text_of(a.found) + ", check of its words " + text_of(checked));
    return "all four alike";
}

} // namespace compare
