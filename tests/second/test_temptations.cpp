// "Errors a bidder will be tempted by" (01): a finder for one node with each error built in, shown to
// answer otherwise on a named input.
#include "parts.hpp"

#include "least.hpp"

#include <algorithm>
#include <optional>

namespace second {

namespace {

enum class error { none, past_forgotten, grown_from_next, nearest_witness, witness_in_list };

using tree = std::vector<std::uint32_t>;

// Tries the rules of a since or an until; its parts are the right ones, from the reference.
class bidder {
public:
    bidder(const test_case& c, error made)
        : where(setting_of(c.prefix, c.loop, c.table)), truth(where), best(where, truth), made(made) {}

    // The tree taken for the least one; none if no rule seems to fit.
    std::optional<tree> found(std::size_t entry, std::uint64_t i) {
        trees.clear();
        if (where.entries[entry].kind == SINCE) since(entry, i); else until(entry, i);
        if (trees.empty()) return {};
        const auto smaller = [](const tree& a, const tree& b) {
            return a.size() != b.size() ? a.size() < b.size() : a < b;
        };
        return *std::min_element(trees.begin(), trees.end(), smaller);
    }

private:
    void since(std::size_t entry, std::uint64_t i) {
        const auto [kind, left, right] = where.entries[entry];
        for (std::uint64_t n = 0; n <= i; ++n) {
            const std::uint64_t from = made == error::witness_in_list ? i - n : i - n + 1;
            add(11, HOLDS, right, i - n, left, from, i + 1);
            add(12, VIOLATED, left, i - n, right, i - n, i + 1);
        }
        add(13, VIOLATED, {}, 0, right, 0, i + 1);
    }

    void until(std::size_t entry, std::uint64_t i) {
        const auto [kind, left, right] = where.entries[entry];
        for (std::uint64_t n = 0; n < 40; ++n) {
            add(14, HOLDS, right, i + n, left, i, i + n);
            if (made == error::nearest_witness && !trees.empty()) return;
        }
        for (std::uint64_t n = 1; n < 40; ++n) add(15, VIOLATED, left, i + n - 1, right, i, i + n);
        std::uint64_t end = i + where.endless_count(entry, i);
        if (made == error::past_forgotten)
            end = std::max<std::uint64_t>(i, where.prefix.size()) + where.loop.size();
        if (made == error::grown_from_next) end = i + 1 + where.endless_count(entry, i + 1);
        add(16, VIOLATED, {}, 0, right, i, end);
    }

    // Adds the tree of a rule with a first part, if it has one, and a list, if all of them have the verdict.
    void add(std::uint32_t rule, std::uint32_t verdict, std::optional<std::size_t> first, std::uint64_t at,
             std::size_t list, std::uint64_t from, std::uint64_t to) {
        tree t{word_of({rule, 0, std::uint32_t(to - from)})};
        const auto part = [&](std::size_t entry, std::uint64_t position) {
            const tree& below = best.tree(entry, position);
            t.insert(t.end(), below.begin(), below.end());
            return truth.verdict(entry, position) == verdict;
        };
        if (first && !part(*first, at)) return;
        for (std::uint64_t k = from; k < to; ++k)
            if (!part(list, k)) return;
        trees.push_back(t);
    }

    const setting where;
    const meaning truth;
    least best;
    const error made;
    std::vector<tree> trees;
};

// A question, the error, the size that it gives (0 if no tree), and what the checker says
// of the tree: 0, or 9 with a place.
struct row {
    const char* question;
    error made;
    std::size_t right_size, wrong_size;
    std::uint32_t number, place;
    const char* name;
};

const char A_6_AT_1[] = "find | 1;4,2;0,1,0/0,0,0/5,1,0/1,2,0/4,0,1/0,2,0/5,5,4 6 1 | 16384 | 0 0 2 9 | | "
                        "right has a past";
const char B_2_AT_0[] = "find | ;1;0,0,0/0,1,0/5,0,1 2 0 | 16384 | 0 0 2 2 | | at the right side's threshold";
const char BEFORE[] = "find | 1;1;0,0,0/0,1,0/5,0,1 2 0 | 16384 | 0 0 2 3 | | "
                      "before the right side's threshold growing is right";
const char LATER[] = "find | 1;3;0,0,0/0,1,0/5,0,1/2,1,2/5,0,3 4 0 | 16384 | 0 0 1 4 | | "
                     "the second witness has cheaper parts";
const char A_4_AT_0[] = "find | 1;4,2;0,1,0/0,0,0/5,1,0/1,2,0/4,0,1 4 0 | 16384 | 0 0 1 2 | | "
                        "left does not hold at the witness";
const char BOTH[] = "find | ;3;0,0,0/0,1,0/4,0,1 2 1 | 16384 | 0 0 1 2 | | left holds at the witness as well";

const row ROWS[] = {
    {A_6_AT_1, error::past_forgotten, 9, 8, 9, 0, "rule 16 one loop past u"},
    {B_2_AT_0, error::grown_from_next, 2, 3, 9, 0, "rule 16 grown from i + 1"},
    {BEFORE, error::grown_from_next, 3, 3, 0, 0, "rule 16 grown from i + 1, where that is right"},
    {LATER, error::nearest_witness, 4, 5, 0, 0, "the nearest witness"},
    {A_4_AT_0, error::witness_in_list, 2, 0, 0, 0, "rule 11 with i - n in its list, no tree left"},
    {BOTH, error::witness_in_list, 2, 3, 9, 1, "rule 11 with i - n in its list"},
};

} // namespace

std::string test_temptations() {
    tally t("tempting errors", {"told apart"}, {9}, {});
    std::vector<std::uint16_t> work(MIN_WORK);
    for (const row& w : ROWS) {
        const test_case c = case_of(w.question);
        const auto expect = [&](bool as_should, const std::string& what) {
            if (!as_should) throw failure(std::string(w.name) + ": " + what + "\n" + w.question);
        };
        engine e(c.prefix, c.loop, c.table);
        expect(c.expected.size == w.right_size && e.find(c.entry, c.position, work) == c.expected,
               "the reference does not find the right size");
        tree right(w.right_size);
        e.write(c.entry, c.position, work, right);
        expect(bidder(c, error::none).found(c.entry, c.position) == right,
               "without the error the tree is not the reference's");
        const std::optional<tree> wrong = bidder(c, w.made).found(c.entry, c.position);
        expect((wrong ? wrong->size() : 0) == w.wrong_size, "the error gives another size than it should");
        if (wrong) {
            const answer checked = e.check(c.entry, c.position, *wrong);
            expect(checked.number == w.number && checked.place == w.place,
                   "the checker says something else of the wrong tree");
            t.met_refusal(checked.number);
        }
        if (wrong != right) t.met("told apart");
    }
    return t.line();
}

} // namespace second
