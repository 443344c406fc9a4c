// Random schedules, tables and asked places.
#include "questions.hpp"

#include <algorithm>

namespace second {

const mixture ALL{{NOT, OR, AND, SINCE, UNTIL, SINCE, UNTIL}, 4};
const mixture PAST{{NOT, OR, AND, SINCE, SINCE, SINCE}, 4};
const mixture FUTURE{{NOT, OR, AND, UNTIL, UNTIL, UNTIL}, 4};
const mixture DEEP{{NOT, OR, SINCE, UNTIL, SINCE, UNTIL}, 2};
const mixture SHARED{{OR, AND, SINCE, UNTIL}, 2};

std::vector<std::uint32_t> random_letters(random_source& r, std::size_t count, std::size_t atoms) {
    std::vector<std::uint32_t> list(count);
    for (std::size_t a = 0; a < atoms; ++a) {
        const std::uint64_t in_sixteen = r.pick({0, 1, 4, 8, 12, 15, 16});
        for (std::uint32_t& letter : list)
            if (r.below(16) < in_sixteen) letter |= 1u << a;
    }
    return list;
}

void random_schedule(test_case& c, random_source& r, std::size_t least_loop, std::size_t most_letters) {
    const std::size_t all = r.between(least_loop, most_letters);
    const std::size_t loop = r.one_in(4) ? all : r.between(least_loop, all);
    const std::vector<std::uint32_t> both = random_letters(r, all, 3);
    c.prefix.assign(both.begin(), both.end() - std::ptrdiff_t(loop));
    c.loop.assign(both.end() - std::ptrdiff_t(loop), both.end());
}

void growing_table::add(std::uint32_t word) {
    const entry_fields e = entry_of(word);
    std::size_t p = 0, f = 0;
    if (e.kind != ATOM) p = past[e.left], f = future[e.left];
    if (e.kind >= OR) p = std::max(p, past[e.right]), f = std::max(f, future[e.right]);
    words.push_back(word), past.push_back(p + (e.kind == SINCE)), future.push_back(f + (e.kind == UNTIL));
}

void growing_table::drop() { words.pop_back(), past.pop_back(), future.pop_back(); }

std::vector<std::uint32_t> random_table(random_source& r, std::size_t entries, const mixture& m) {
    growing_table t;
    const std::size_t atoms = std::min<std::size_t>(r.between(1, 3), entries);
    for (std::size_t a = 0; a < atoms; ++a) t.add(entry_word(ATOM, a, 0));
    while (t.words.size() < entries) {
        const std::size_t k = t.words.size();
        const auto part = [&] {
            return r.one_in(2) ? r.below(k) : k - 1 - r.below(std::min<std::uint64_t>(k, m.near));
        };
        const std::uint64_t kind = r.pick(m.kinds), left = part();
        t.add(entry_word(kind, left, kind == NOT ? 0 : part()));
        if (t.heights(k) > MAX_HEIGHTS) t.drop();
    }
    return t.words;
}

void random_ask(test_case& c, random_source& r) {
    const std::size_t last = c.table.size() - 1;
    c.entry = r.one_in(2) ? last : r.below(last + 1);
    c.position = r.one_in(3)   ? r.below(256)
                 : r.one_in(2) ? r.below(8)
                               : r.below(c.prefix.size() + 2 * c.loop.size() + 1) % 256;
    c.what = call(r.below(3));
    c.work = MIN_WORK;
    c.room = MAX_TREE;
}

std::uint32_t demanding_ask(test_case& c, random_source& r) {
    engine e(c.prefix, c.loop, c.table);
    std::vector<std::uint16_t> work(MIN_WORK);
    random_ask(c, r);
    std::uint32_t largest = 0;
    std::size_t entry = c.entry, position = c.position;
    for (int tries = 0; tries < 16; ++tries) {
        random_ask(c, r);
        const std::uint32_t size = e.find(c.entry, c.position, work).size;
        if (size > largest) largest = size, entry = c.entry, position = c.position;
    }
    c.entry = entry, c.position = position;
    return largest;
}

namespace {

// The last three atoms in place of the first, or bits set that no entry names.
void other_atoms(test_case& c, random_source& r) {
    const bool last_three = r.one_in(2);
    for (auto* list : {&c.prefix, &c.loop})
        for (std::uint32_t& letter : *list) {
            const std::uint32_t others = std::uint32_t(r.below(1 << 29));
            letter = last_three ? letter << 29 | others : letter | others << 3;
        }
    for (std::uint32_t& word : c.table)
        if (last_three && entry_of(word).kind == ATOM) word = entry_word(ATOM, entry_of(word).left + 29, 0);
}

} // namespace

void random_question(test_case& c, random_source& r, std::size_t most_letters, std::size_t most_entries,
                     const mixture& m) {
    random_schedule(c, r, 1, most_letters);
    c.table = random_table(r, r.between(1, most_entries), m);
    if (r.one_in(3)) random_ask(c, r);
    else demanding_ask(c, r);
    if (r.one_in(8)) other_atoms(c, r);
}

} // namespace second
