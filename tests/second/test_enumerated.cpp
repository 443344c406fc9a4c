// Tiny inputs: the least tree word for word, one verdict, exactly the listed trees
// accepted, and the place of every refusal.
#include "parts.hpp"

#include "draws.hpp"
#include "enumerate.hpp"
#include "shapes.hpp"

#include <algorithm>

namespace second {

namespace {

constexpr std::size_t MOST_WORDS = 22, MORE_SIZES = 6, ENOUGH_TREES = 400, DAMAGES = 12;

using letters = std::vector<std::uint32_t>;

test_case question(letters prefix, letters loop, std::vector<std::uint32_t> table, std::size_t entry,
                   std::size_t position) {
    test_case c;
    c.prefix = std::move(prefix), c.loop = std::move(loop), c.table = std::move(table);
    c.entry = entry, c.position = position, c.work = MIN_WORK, c.room = MAX_TREE;
    return c;
}

class confirmation {
public:
    confirmation(const test_case& asked, tally& t)
        : c(asked), t(t), reference(c.prefix, c.loop, c.table), all(c.prefix, c.loop, c.table),
          work(MIN_WORK) {}

    void run(random_source& r) {
        list_trees();
        if (fewest == 0) { t.met("inputs with too many trees to list"); return; }
        t.met("inputs");
        verdict = RULES[node_of(trees[0][0]).rule].verdict;
        one_verdict();
        least_tree();
        for (const auto& tree : trees) expect(tree);
        t.met("trees accepted", trees.size());
        for (std::size_t k = 0; k < DAMAGES; ++k) damaged(r);
    }

private:
    // All trees of one word, of two, and so on, to some sizes past the smallest.
    void list_trees() {
        for (std::size_t words = 1; words <= MOST_WORDS; ++words) {
            std::vector<enumerator::tree> found = all.trees(c.entry, c.position, false, words);
            const auto& holding = all.trees(c.entry, c.position, true, words);
            found.insert(found.end(), holding.begin(), holding.end());
            if (all.full) return;
            if (fewest == 0 && !found.empty()) fewest = words;
            std::sort(found.begin(), found.end());
            trees.insert(trees.end(), found.begin(), found.end());
            complete = words;
            if (fewest != 0 && (words == fewest + MORE_SIZES || trees.size() > ENOUGH_TREES)) return;
        }
    }

    void one_verdict() {
        for (const auto& tree : trees)
            if (RULES[node_of(tree[0]).rule].verdict != verdict) fail("listed with both verdicts");
        c.what = call::truth, c.expected = {0, 0, verdict, 0};
        compare();
        if (trees.back().size() > fewest) t.met("inputs with trees of other sizes");
    }

    // The trees are sorted by size, then by words; so the least one is the first.
    void least_tree() {
        c.what = call::find, c.expected = {0, 0, verdict, std::uint32_t(fewest)};
        compare();
        c.what = call::write, c.written = trees[0];
        compare();
        t.met_root(trees[0][0]);
        const std::uint32_t right = entry_of(c.table[c.entry]).right;
        if (node_of(trees[0][0]).rule == 16 && setting_of(c.prefix, c.loop, c.table).past[right] > 0)
            t.met("least trees by rule 16 over a past");
        if (trees.size() > 1 && trees[1].size() == fewest) t.met("ties");
        c.written.clear();
    }

    // Does the checker say what the list says of these words?
    void expect(const std::vector<std::uint32_t>& tree) {
        const bool listed = std::find(trees.begin(), trees.end(), tree) != trees.end();
        const auto broken = all.break_of(c.entry, c.position, tree);
        if (tree.size() <= complete && listed == broken.has_value()) fail("listed and broken, or neither");
        c.what = call::check, c.tree = tree;
        c.expected = broken ? answer{9, std::uint32_t(*broken), 0, 0} : answer{0, 0, verdict, 0};
        compare();
    }

    void damaged(random_source& r) {
        auto tree = r.pick(trees);
        const auto before = tree;
        for (std::uint64_t left = r.between(1, 2); left > 0; --left) damage_tree(tree, c.loop.size(), r);
        if (tree == before) return;
        expect(tree);
        const std::uint32_t place = c.expected.place;
        if (c.expected.number == 0) t.met("damaged trees still valid");
        else if (place == tree.size()) t.met("damaged trees that lack words");
        else t.met(place == 0 ? "damaged trees refused at the root" : "damaged trees refused inside");
        t.met_refusal(c.expected.number);
    }

    void compare() {
        std::vector<std::uint32_t> tree(MAX_TREE);
        const answer got = answered(tree);
        tree.resize(got.size);
        if (got != c.expected) fail("answers " + text_of(got));
        if (c.what == call::write && tree != c.written) fail("another tree of the same size");
    }

    answer answered(std::vector<std::uint32_t>& tree) try {
        switch (c.what) {
        case call::truth: return reference.truth(c.entry, c.position, work);
        case call::find: return reference.find(c.entry, c.position, work);
        case call::write: return reference.write(c.entry, c.position, work, tree);
        default: return reference.check(c.entry, c.position, c.tree);
        }
    } catch (const std::logic_error& e) {
        fail(e.what());
    }

    [[noreturn]] void fail(const std::string& what) const {
        throw failure("listed trees say:\n" + line_of(c) + "\nthe reference: " + what);
    }

    test_case c;
    tally& t;
    engine reference;
    enumerator all;
    std::vector<std::uint16_t> work;
    std::vector<enumerator::tree> trees; // by size, then by words
    std::size_t fewest = 0, complete = 0;
    std::uint32_t verdict = 0;
};

// Every table of two atoms and one operator, on every schedule of at most one letter and a loop of
// at most two, at positions 0 to 3.
void systematic(tally& t, random_source& r) {
    std::vector<std::vector<std::uint32_t>> tables = {{0, 256, NOT * 65536}};
    for (std::uint32_t kind : {OR, AND, SINCE, UNTIL})
        for (std::uint32_t parts : {0, 1, 256, 257}) tables.push_back({0, 256, kind * 65536 + parts});
    for (std::uint32_t choice = 0; choice < 5 * 4 * 5; ++choice) {
        const std::uint32_t before = choice % 5, first = choice / 5 % 4, second = choice / 20;
        letters prefix, loop{first};
        if (before < 4) prefix = {before};
        if (second < 4) loop.push_back(second);
        for (const auto& table : tables)
            for (std::size_t position = 0; position < 4; ++position)
                confirmation(question(prefix, loop, table, 2, position), t).run(r);
    }
}

void random(tally& t, random_source& r, std::size_t inputs) {
    for (std::size_t k = 0; k < inputs; ++k) {
        random_source own(r.next());
        const test_case c = case_of_shape(k % 4 == 0 ? "shared" : k % 2 == 0 ? "tiny" : "deep", own);
        const std::size_t entry = own.one_in(4) ? c.entry : c.table.size() - 1;
        confirmation(question(c.prefix, c.loop, c.table, entry, own.below(5)), t).run(own);
    }
}

} // namespace

std::string test_enumerated(random_source r) {
    tally t("listed trees",
            {"inputs", "inputs with trees of other sizes", "ties", "least trees by rule 16 over a past",
             "trees accepted", "damaged trees still valid", "damaged trees that lack words",
             "damaged trees refused at the root", "damaged trees refused inside"},
            {9}, {1, 2, 3, 4, 5, 6, 7, 8, 9, 10, 11, 12, 13, 14, 15, 16});
    systematic(t, r);
    random(t, r, share_of(24000));
    return t.line();
}

namespace {

// All lists of up to four words over the words of the question's own trees and some that belong nowhere.
class short_lists {
public:
    short_lists(const test_case& asked, tally& t)
        : c(asked), t(t), reference(c.prefix, c.loop, c.table), all(c.prefix, c.loop, c.table) {
        std::set<std::uint32_t> all_words = {0, word_of({5, 0, 1}), word_of({14, 0, 1}), word_of({17, 0, 0})};
        for (std::size_t words = 1; words <= 4; ++words)
            for (bool holding : {false, true})
                for (const auto& tree : all.trees(c.entry, c.position, holding, words)) {
                    all_words.insert(tree.begin(), tree.end());
                    trees.insert(tree);
                }
        alphabet.assign(all_words.begin(), all_words.end());
    }

    void run() {
        for (std::size_t length = 0; length <= 4; ++length) {
            std::vector<std::size_t> digits(length);
            do expect(digits);
            while (count_on(digits));
        }
    }

private:
    // The next list of the same length; false after the last.
    bool count_on(std::vector<std::size_t>& digits) const {
        for (std::size_t& digit : digits) {
            if (++digit < alphabet.size()) return true;
            digit = 0;
        }
        return false;
    }

    void expect(const std::vector<std::size_t>& digits) {
        std::vector<std::uint32_t> list;
        for (std::size_t digit : digits) list.push_back(alphabet[digit]);
        const answer got = reference.check(c.entry, c.position, list);
        const bool listed = trees.contains(list);
        const auto broken = all.break_of(c.entry, c.position, list);
        if ((got.number == 0) != listed || listed == broken.has_value() || (broken && got.place != *broken)) {
            c.what = call::check, c.tree = list, c.expected = got;
            throw failure("all short lists: wrongly answered\n" + line_of(c));
        }
        t.met("lists");
        t.met(listed ? "accepted" : "refused");
    }

    test_case c;
    tally& t;
    const engine reference;
    enumerator all;
    std::set<std::vector<std::uint32_t>> trees;
    std::vector<std::uint32_t> alphabet;
};

} // namespace

std::string test_short_lists() {
    tally t("all short lists", {"questions", "lists", "accepted", "refused"}, {}, {});
    const auto ask = [&](const letters& prefix, const letters& loop,
                         const std::vector<std::uint32_t>& table) {
        for (std::size_t position = 0; position < 2; ++position)
            short_lists(question(prefix, loop, table, table.size() - 1, position), t).run();
        t.met("questions", 2);
    };
    for (std::uint32_t letter = 0; letter < 4; ++letter) {
        for (std::uint32_t kind : {OR, AND, SINCE, UNTIL}) ask({}, {letter}, {0, 256, kind * 65536 + 1});
        ask({3}, {letter}, {0, 256, SINCE * 65536 + 1});
        ask({3}, {letter}, {0, 256, UNTIL * 65536 + 1});
        ask({}, {letter}, {0, NOT * 65536, NOT * 65536 + 256});
        ask({}, {letter}, {0, 256, SINCE * 65536 + 256, UNTIL * 65536 + 2});
        ask({}, {letter}, {0, 256, UNTIL * 65536 + 256, SINCE * 65536 + 2});
    }
    return t.line();
}

} // namespace second
