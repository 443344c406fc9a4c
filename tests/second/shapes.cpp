// The shapes: what kind of schedule, table, question and call each of them makes.
#include "shapes.hpp"

#include "questions.hpp"

#include <algorithm>
#include <stdexcept>

namespace second {

namespace {

// Each later entry is made from those just before it: kind(k - 1, k - back).
void chain(test_case& c, random_source& r, std::uint64_t kind, std::size_t back) {
    random_schedule(c, r, 1, 6);
    const std::size_t entries = r.one_in(3) ? MAX_ENTRIES : r.between(2, MAX_ENTRIES);
    c.table = {entry_word(ATOM, r.below(3), 0)};
    while (c.table.size() < entries) {
        const std::size_t k = c.table.size();
        c.table.push_back(entry_word(kind, k - 1, kind == NOT ? 0 : k - std::min(k, back)));
    }
    random_ask(c, r);
}

// A table whose last entry has two heights that add up to exactly so many.
void heights_exactly(test_case& c, random_source& r, std::size_t heights) {
    random_question(c, r, 8, 6, ALL);
    growing_table t;
    for (std::uint32_t word : c.table) t.add(word);
    while (t.words.size() < MAX_ENTRIES && t.heights(t.words.size() - 1) != heights) {
        const std::size_t k = t.words.size(), left = r.one_in(3) ? r.below(k) : k - 1;
        const std::uint64_t kind = r.pick({NOT, OR, SINCE, UNTIL});
        t.add(entry_word(kind, left, kind == NOT ? 0 : k - 1));
        if (t.heights(k) > heights) t.drop();
    }
    c.table = t.words;
    c.entry = c.table.size() - 1;
    if (r.one_in(4)) c.entry = r.below(40);
}

// The dearest inputs: 48 letters, 32 entries with as many operators of time as the heights
// allow, often at the last position.
void full(test_case& c, random_source& r) {
    random_schedule(c, r, 1, MAX_LETTERS);
    while (c.prefix.size() + c.loop.size() < MAX_LETTERS)
        (r.one_in(2) ? c.prefix : c.loop).push_back(std::uint32_t(r.below(8)));
    c.table = random_table(r, MAX_ENTRIES, r.one_in(2) ? ALL : r.one_in(2) ? PAST : FUTURE);
    demanding_ask(c, r);
    if (r.one_in(2)) c.position = MAX_POSITION;
}

// Of some questions the one with the largest tree.
void demanding(test_case& c, random_source& r) {
    std::uint32_t largest = 0;
    for (int tries = 0; tries < 8; ++tries) {
        test_case drawn;
        random_schedule(drawn, r, 1, r.one_in(4) ? MAX_LETTERS : 16);
        const mixture& kinds = r.one_in(2) ? ALL : r.one_in(2) ? PAST : FUTURE;
        drawn.table = random_table(r, r.between(6, 20), kinds);
        const std::uint32_t size = demanding_ask(drawn, r);
        if (size >= largest) largest = size, c = drawn;
    }
}

// Least sizes round 4,095. An odd size s comes from or(x, x) violated with x of (s - 1) / 2, an
// even one from and(x, x) violated with x of s - 1; with the loop's atom set instead, the same with
// or and and changed about, holding.
void size_by_halving(test_case& c, random_source& r) {
    const bool holds = r.one_in(2);
    std::vector<std::uint64_t> kinds;
    for (std::uint64_t size = r.one_in(3) ? r.pick({4095, 4096}) : r.between(4080, 4110); size > 1;
         size = size % 2 ? (size - 1) / 2 : size - 1)
        kinds.push_back((size % 2 == 1) == holds ? AND : OR);
    c.loop = {holds ? 1u : 0u};
    c.table = {entry_word(ATOM, 0, 0)};
    for (std::size_t k = kinds.size(); k-- > 0;)
        c.table.push_back(entry_word(kinds[k], c.table.size() - 1, c.table.size() - 1));
    random_ask(c, r);
    c.entry = c.table.size() - 1;
}

// The same by lists: rule 13 at about 253 under four ors, and three untils, one in
// the other, on loops of about 15.
void size_by_lists(test_case& c, random_source& r) {
    if (r.one_in(2)) {
        c.loop = {1};
        c.table = {entry_word(ATOM, 0, 0), entry_word(ATOM, 1, 0), entry_word(SINCE, 0, 1),
                   entry_word(OR, 2, 2),   entry_word(OR, 3, 3),   entry_word(OR, 4, 4),
                   entry_word(OR, 5, 5)};
        random_ask(c, r);
        c.position = r.between(250, 255);
    } else {
        c.prefix.assign(r.below(3), 1);
        c.loop.assign(r.between(13, 17), 1);
        c.table = {entry_word(ATOM, 0, 0), entry_word(ATOM, 1, 0), entry_word(UNTIL, 0, 1),
                   entry_word(UNTIL, 0, 2), entry_word(UNTIL, 0, 3)};
        random_ask(c, r);
    }
    c.entry = c.table.size() - 1;
}

void far_position(test_case& c, random_source& r) {
    random_question(c, r, 8, 8, ALL);
    c.position = r.pick({255, 256, 257, 511, 512, 65535, 65536, 4294967295, 4294967296,
                         4294967296 + r.below(256), UINT64_MAX - 1, UINT64_MAX});
}

void letters_at_the_edge(test_case& c, random_source& r) {
    random_question(c, r, 8, 8, ALL);
    const std::size_t all = r.between(47, 49), loop = r.pick({0, 1, 2, 24, all - 1, all});
    c.prefix = random_letters(r, all - loop, 2);
    c.loop = random_letters(r, loop, 2);
}

void entries_at_the_edge(test_case& c, random_source& r) {
    random_question(c, r, 8, 8, ALL);
    c.table = random_table(r, r.pick({0, 1, 31, 32, 33, 40}), ALL);
    c.entry = r.pick({0, 30, 31, 32, 33, c.table.size(), c.table.size() - 1, 4294967296, UINT64_MAX});
}

void damage_table(test_case& c, random_source& r) {
    const std::size_t k = r.below(c.table.size());
    const entry_fields e = entry_of(c.table[k]);
    switch (r.below(8)) {
    case 0: c.table[k] = entry_word(r.pick({6, 7, 11, 12, 255, 256, 65535}), e.left, e.right); break;
    case 1: c.table[k] = entry_word(e.kind, r.pick({k, k + 1, 31, 32, 255}) % 256, e.right); break;
    case 2: c.table[k] = entry_word(e.kind, e.left, r.pick({1, k, k + 1, 255}) % 256); break;
    case 3: c.table[k] = std::uint32_t(r.next()); break;
    case 4: c.table[k] ^= 1u << r.below(32); break;
    case 5: c.table[0] = entry_word(r.between(1, 5), 0, 0); break;
    case 6: std::swap(c.table[k], c.table[r.below(c.table.size())]); break;
    case 7: c.table[k] = std::uint32_t(r.below(6 * 65536)); break;
    }
}

void damaged_table(test_case& c, random_source& r) {
    random_question(c, r, 8, 12, ALL);
    damage_table(c, r);
}

void lengths(test_case& c, random_source& r) {
    random_question(c, r, 6, 8, ALL);
    c.what = call(r.below(3));
    c.work = r.pick({0, 1, 16383, 16384, 16385, 17000, r.below(17000)});
    c.room = r.one_in(2) ? r.below(24) : r.pick({0, 1, 4094, 4095, 4096});
    if (r.one_in(2)) { // room for exactly the tree, or one word less or more
        test_case found = c;
        found.what = call::find, found.work = MIN_WORK;
        answer_case(found);
        c.work = std::max<std::size_t>(c.work, MIN_WORK), c.what = call::write;
        c.room = found.expected.size + r.below(3) - (found.expected.size > 0);
    }
}

// Two to four things wrong at once: the order of refusals decides.
void several_wrong(test_case& c, random_source& r) {
    random_question(c, r, 6, 8, ALL);
    if (r.one_in(3)) c.what = call::check, c.tree = std::vector<std::uint32_t>(r.pick({0, 1, 4095, 4096}));
    for (std::uint64_t left = r.between(2, 4); left > 0; --left) {
        switch (r.below(9)) {
        case 0: c.loop.clear(); break;
        case 1: c.prefix.resize(49); break;
        case 2: c.table.resize(r.pick({0, 33})); break;
        case 3: if (!c.table.empty()) damage_table(c, r); break;
        case 4:
            c.table = {entry_word(ATOM, 0, 0)};
            for (std::size_t k = 0; k < 6; ++k)
                c.table.push_back(entry_word(r.one_in(2) ? SINCE : UNTIL, k, k));
            break;
        case 5: c.entry = r.between(30, 40); break;
        case 6: c.position = r.between(255, 300); break;
        case 7: c.work = r.between(16380, 16384); break;
        case 8: c.room = r.below(3); break;
        }
    }
}

void tree_question(test_case& c, random_source& r) {
    if (r.one_in(3)) demanding(c, r);
    else if (r.one_in(2)) random_question(c, r, 5, 7, ALL);
    else random_question(c, r, 12, 16, r.one_in(2) ? PAST : FUTURE);
    c.what = call::check, c.work = 0, c.room = 0;
}

void valid_tree(test_case& c, random_source& r) {
    tree_question(c, r);
    c.tree = random_tree(c, r);
}

void damaged_tree(test_case& c, random_source& r) {
    valid_tree(c, r);
    for (std::uint64_t left = r.between(1, 2); left > 0; --left) damage_tree(c.tree, c.loop.size(), r);
}

void tree_of_another_place(test_case& c, random_source& r) {
    valid_tree(c, r);
    if (r.one_in(2)) c.position = (c.position + r.pick({1, 255, c.loop.size()})) % 256;
    else c.entry = r.below(c.table.size());
}

void random_words(test_case& c, random_source& r) {
    tree_question(c, r);
    for (std::uint64_t left = r.below(6); left > 0; --left) {
        const node_fields likely{std::uint32_t(r.between(1, 16)), r.one_in(3) ? 1u : 0u,
                                 std::uint32_t(r.below(3))};
        c.tree.push_back(r.one_in(4) ? std::uint32_t(r.next()) : word_of(likely));
    }
}

// An until with a far witness, and other trees of about 4,095 words, whole, one word short or one too long.
void long_tree(test_case& c, random_source& r) {
    c.loop = {3};
    c.table = {entry_word(ATOM, 0, 0), entry_word(ATOM, 1, 0), entry_word(UNTIL, 0, 1)};
    c.what = call::check, c.entry = 2, c.position = r.below(256);
    const std::uint32_t n = std::uint32_t(r.between(4088, 4096)), i = std::uint32_t(c.position);
    c.tree = {word_of({14, 0, n}), word_of({1, 1, i + n})};
    for (std::uint32_t k = 0; k < n; ++k) c.tree.push_back(word_of({1, 0, i + k}));
    if (r.one_in(3)) c.tree.pop_back();
    if (r.one_in(3)) damage_tree(c.tree, 1, r);
}

void some_view(test_case& c, random_source& r) {
    random_schedule(c, r, 0, r.one_in(5) ? 1000 : 6);
    c.what = call::view;
    c.position = r.one_in(3) ? r.next() : r.below(c.prefix.size() + 3 * c.loop.size() + 2);
}

void text(test_case& c, random_source& r) {
    if (r.one_in(6)) several_wrong(c, r);
    else if (r.one_in(3)) random_question(c, r, 49, 33, ALL);
    else random_question(c, r, 6, 6, ALL);
    for (std::uint32_t& word : c.table) word &= 0xffffff; // a kind that can be written
    c.entry %= 65536, c.position %= 65536;
    c.text = text_of_question(c);
    c.what = call::explain;
}

void damaged_text(test_case& c, random_source& r) {
    text(c, r);
    for (std::uint64_t left = r.between(1, 2); left > 0; --left) damage_text(c.text, r);
}

// What a call is not given is not printed, so a case that is read back has none of it.
void forget_what_is_not_given(test_case& c) {
    if (c.what == call::explain) {
        test_case only;
        only.what = c.what, only.text = c.text;
        c = only;
    }
    if (c.what != call::check) c.tree.clear();
    if (c.what == call::check || c.what == call::view) c.work = 0;
    if (c.what != call::write) c.room = 0;
    if (c.what == call::view) c.table.clear(), c.entry = 0;
}

using maker = std::function<void(test_case&, random_source&)>;

const std::vector<std::pair<std::string, maker>> SHAPES = {
    // No call below has two arguments that draw: their order would be the compiler's.
    {"tiny", [](test_case& c, random_source& r) { random_question(c, r, 4, 5, ALL); }},
    {"deep", [](test_case& c, random_source& r) { random_question(c, r, 3, 7, DEEP); }},
    {"mixed", [](test_case& c, random_source& r) { random_question(c, r, 16, 16, ALL); }},
    {"past", [](test_case& c, random_source& r) { random_question(c, r, 16, 12, PAST); }},
    {"future", [](test_case& c, random_source& r) { random_question(c, r, 16, 12, FUTURE); }},
    {"shared", [](test_case& c, random_source& r) { random_question(c, r, 4, 8, SHARED); }},
    {"loop-of-one",
     [](test_case& c, random_source& r) { random_question(c, r, 8, 12, ALL); c.loop.resize(1); }},
    {"not-chain", [](test_case& c, random_source& r) { chain(c, r, NOT, 1); }},
    {"and-chain", [](test_case& c, random_source& r) { chain(c, r, r.one_in(2) ? AND : OR, 2); }},
    {"doubling-chain", [](test_case& c, random_source& r) { chain(c, r, r.one_in(2) ? AND : OR, 1); }},
    {"full", full},
    {"demanding", demanding},
    {"heights-five", [](test_case& c, random_source& r) { heights_exactly(c, r, 5); }},
    {"heights-six", [](test_case& c, random_source& r) { heights_exactly(c, r, 6); }},
    {"size-by-halving", size_by_halving},
    {"size-by-lists", size_by_lists},
    {"far-position", far_position},
    {"letters-at-the-edge", letters_at_the_edge},
    {"entries-at-the-edge", entries_at_the_edge},
    {"damaged-table", damaged_table},
    {"lengths", lengths},
    {"several-wrong", several_wrong},
    {"valid-tree", valid_tree},
    {"damaged-tree", damaged_tree},
    {"tree-of-another-place", tree_of_another_place},
    {"random-words", random_words},
    {"long-tree", long_tree},
    {"view", some_view},
    {"text", text},
    {"damaged-text", damaged_text},
};

} // namespace

std::vector<std::string> shape_names() {
    std::vector<std::string> names;
    for (const auto& [name, make] : SHAPES) names.push_back(name);
    return names;
}

void answer_case(test_case& c, engine& e) {
    std::vector<std::uint16_t> work(c.work);
    std::vector<std::uint32_t> tree(c.room);
    switch (c.what) {
    case call::truth: c.expected = e.truth(c.entry, c.position, work); break;
    case call::find: c.expected = e.find(c.entry, c.position, work); break;
    case call::write:
        c.expected = e.write(c.entry, c.position, work, tree);
        c.written.assign(tree.begin(), tree.begin() + c.expected.size);
        break;
    case call::check: c.expected = e.check(c.entry, c.position, c.tree); break;
    default: throw std::invalid_argument("an engine has no " + name_of(c.what));
    }
}

void answer_case(test_case& c) {
    switch (c.what) {
    case call::view: {
        const words part = view(c.prefix, c.loop, c.position);
        c.of_loop = c.position >= c.prefix.size();
        c.first = std::size_t(part.data() - (c.of_loop ? c.loop : c.prefix).data()), c.count = part.size();
        break;
    }
    case call::explain:
        c.output = explain({reinterpret_cast<const std::uint8_t*>(c.text.data()), c.text.size()});
        break;
    default: {
        engine e(c.prefix, c.loop, c.table);
        answer_case(c, e);
    }
    }
}

test_case case_of_shape(const std::string& shape, random_source& r) {
    for (const auto& [name, make] : SHAPES) {
        if (name != shape) continue;
        test_case c;
        make(c, r);
        forget_what_is_not_given(c);
        c.why = name;
        answer_case(c);
        return c;
    }
    throw std::out_of_range("no shape " + shape);
}

} // namespace second
