// What each change does. No call below has two arguments that draw: their order would be the compiler's.
#include "changes.hpp"

#include "questions.hpp"
#include "shapes.hpp"

#include <algorithm>

namespace compare {

namespace {

using namespace second;
using list = std::vector<std::uint32_t>;

bool is_atom(node_fields node) { return node.rule == 1 || node.rule == 2; }
bool has_count(node_fields node) { return node.rule >= 11 && node.rule <= 16; }

// The places of all words of a tree of which something is true.
std::vector<std::size_t> places(const list& tree, bool (*true_of)(node_fields)) {
    std::vector<std::size_t> found;
    for (std::size_t k = 0; k < tree.size(); ++k)
        if (true_of(node_of(tree[k]))) found.push_back(k);
    return found;
}

bool nothing(test_case&, random_source&) { return true; }

bool word_changed(test_case& c, random_source& r) {
    if (c.tree.empty()) return false;
    std::uint32_t& word = c.tree[r.below(c.tree.size())];
    if (r.one_in(2)) word ^= 1u << r.below(32);
    else word = r.one_in(2) ? r.pick(c.tree) : std::uint32_t(r.next());
    return true;
}

bool cut(test_case& c, random_source& r) {
    if (c.tree.empty()) return false;
    c.tree.resize(r.one_in(4) ? c.tree.size() - 1 : r.below(c.tree.size()));
    return true;
}

// By words of its own or any others, sometimes to and past the most that is looked at.
bool extended(test_case& c, random_source& r) {
    const std::size_t least_length = r.one_in(6) ? r.pick({4095, 4096, 4097, 70000}) : 0;
    const std::size_t length = std::max(least_length, c.tree.size() + r.between(1, 3));
    const std::uint32_t word = c.tree.empty() || r.one_in(3) ? std::uint32_t(r.next()) : r.pick(c.tree);
    c.tree.resize(length, word);
    return true;
}

bool count_enlarged(test_case& c, random_source& r) {
    const auto counted = places(c.tree, has_count);
    if (counted.empty()) return false;
    std::uint32_t& word = c.tree[r.pick(counted)];
    const std::uint64_t room = 65535 - node_of(word).number;
    word += std::uint32_t(std::min(room, r.pick({1, 2, c.loop.size(), 256, 4095, 65535})));
    return true;
}

// A rule of the same kind and the other verdict.
bool sign_turned(test_case& c, random_source& r) {
    if (c.tree.empty()) return false;
    std::uint32_t& word = c.tree[r.below(c.tree.size())];
    const node_fields node = node_of(word);
    if (node.rule < 1 || node.rule > 16) return false;
    std::vector<std::uint32_t> others;
    for (std::uint32_t rule = 1; rule <= 16; ++rule)
        if (RULES[rule].kind == RULES[node.rule].kind && RULES[rule].verdict != RULES[node.rule].verdict)
            others.push_back(rule);
    word = word_of({r.pick(others), node.atom, node.number});
    return true;
}

// The atoms of two nodes change places; a single one gets another atom.
bool atoms_swapped(test_case& c, random_source& r) {
    const auto atoms = places(c.tree, is_atom);
    if (atoms.empty()) return false;
    std::uint32_t& one = c.tree[r.pick(atoms)];
    std::uint32_t& two = c.tree[r.pick(atoms)];
    node_fields a = node_of(one), b = node_of(two);
    if (a.atom == b.atom) a.atom = b.atom = (a.atom + 1) % std::uint32_t(r.pick({2, 32, 256}));
    else std::swap(a.atom, b.atom);
    one = word_of(a), two = word_of(b);
    return true;
}

bool damaged(test_case& c, random_source& r) {
    damage_tree(c.tree, c.loop.size(), r);
    return true;
}

bool another_entry(test_case& c, random_source& r) {
    if (c.table.empty()) return false;
    c.entry = r.below(c.table.size());
    return true;
}

bool another_position(test_case& c, random_source& r) {
    c.position = (c.position + r.pick({1, 255, c.loop.size(), r.below(256)})) % 256;
    return true;
}

// Numbers that a narrower type would take for a smaller one.
bool entry_past_the_table(test_case& c, random_source& r) {
    c.entry = r.one_in(3) ? r.pick({c.table.size(), c.table.size() + 1, SIZE_MAX})
                          : c.entry + (std::size_t(1) << r.between(5, 63));
    return true;
}

bool position_past_255(test_case& c, random_source& r) {
    c.position = r.one_in(3) ? r.pick({256, 257, SIZE_MAX})
                             : c.position + (std::size_t(1) << r.between(8, 63));
    return true;
}

bool list_emptied(test_case& c, random_source& r) {
    list* const lists[] = {&c.prefix, &c.loop, &c.table, &c.tree};
    lists[r.below(c.what == call::check ? 4 : 3)]->clear();
    return true;
}

bool letter_changed(test_case& c, random_source& r) {
    list& letters = r.one_in(2) ? c.prefix : c.loop;
    if (letters.empty()) return false;
    std::uint32_t& letter = letters[r.below(letters.size())];
    letter ^= 1u << (r.one_in(2) ? r.below(3) : r.below(32));
    return true;
}

bool letters_added(test_case& c, random_source& r) {
    list& letters = r.one_in(2) ? c.prefix : c.loop;
    const std::uint64_t more = r.pick({1, 2, 47, 48, 49, 1000});
    letters.resize(letters.size() + more, std::uint32_t(r.below(8)));
    return true;
}

bool table_changed(test_case& c, random_source& r) {
    if (c.table.empty()) return false;
    std::uint32_t& word = c.table[r.below(c.table.size())];
    if (r.one_in(2)) word ^= 1u << r.below(32);
    else word = word % 65536 + 65536 * std::uint32_t(r.below(7));
    return true;
}

bool entries_added(test_case& c, random_source& r) {
    const std::uint64_t more = r.pick({1, 2, 31, 32, 33, 1000});
    c.table.resize(c.table.size() + more, entry_word(ATOM, r.below(32), 0));
    return true;
}

} // namespace

std::vector<change> question_changes() {
    return {
        {"another entry", another_entry},
        {"another position", another_position},
        {"entry past the table", entry_past_the_table},
        {"position past 255", position_past_255},
        {"list emptied", list_emptied},
        {"letter changed", letter_changed},
        {"letters added", letters_added},
        {"table changed", table_changed},
        {"entries added", entries_added},
    };
}

std::vector<change> check_changes() {
    std::vector<change> all = question_changes();
    all.insert(all.end(), {
        {"nothing changed", nothing},
        {"one word changed", word_changed},
        {"tree cut", cut},
        {"tree extended", extended},
        {"count enlarged", count_enlarged},
        {"sign turned", sign_turned},
        {"atoms swapped", atoms_swapped},
        {"tree damaged otherwise", damaged},
    });
    return all;
}

} // namespace compare
