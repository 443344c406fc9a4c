// Two tables, on schedules with several patterns of letters and two lengths of prefix.
#include "dear.hpp"

#include "questions.hpp"

namespace speed {

namespace {

using namespace second;

// Entries 2 to 31, by turns an until and another kind, each over the one before it and an atom that leaves
// the verdict to that. Where the heights would pass 5, and at a last place near the end, they start from an
// atom again, so that the last trees are large but not too large.
list table_of(const std::vector<std::uint64_t>& others, std::size_t last_start) {
    growing_table t;
    t.add(entry_word(ATOM, 0, 0)), t.add(entry_word(ATOM, 1, 0));
    for (std::size_t k = 2; k < MAX_ENTRIES; ++k) {
        const std::uint64_t kind = k % 2 == 0 ? UNTIL : others[k / 2 % others.size()];
        const std::size_t left = kind == OR ? 1 : 0;
        t.add(entry_word(kind, left, k == last_start ? 1 : k - 1));
        if (t.heights(k) > MAX_HEIGHTS) t.drop(), t.add(entry_word(kind, left, 1));
    }
    return t.words;
}

struct pattern {
    std::string name;
    std::uint32_t (*letter)(std::size_t k);
};

const pattern PATTERNS[] = {
    {"atom 0 always, 1 never", [](std::size_t) { return 1u; }},
    {"no atom ever", [](std::size_t) { return 0u; }},
    {"atom 1 in the last letter", [](std::size_t k) { return k == MAX_LETTERS - 1 ? 2u : 1u; }},
    {"by turns", [](std::size_t k) { return k % 2 == 0 ? 1u : 2u; }},
    {"mixed", [](std::size_t k) { return std::uint32_t(k * 2654435761u >> 29 & 3); }},
};

struct named_table {
    std::string name;
    list table;
    std::size_t position; // where it is asked
};

list letters_of(const pattern& p) {
    list letters;
    for (std::size_t k = 0; k < MAX_LETTERS; ++k) letters.push_back(p.letter(k));
    return letters;
}

} // namespace

std::vector<asked> dear_questions() {
    const named_table tables[] = {{"untils and pairs", table_of({OR, AND}, 28), 255},
                                  {"untils and sinces", table_of({SINCE}, 30), 60}};
    std::vector<asked> all;
    for (const named_table& t : tables)
        for (const pattern& p : PATTERNS)
            for (std::size_t prefix : {0, 24})
                all.push_back({t.name + "; " + p.name + "; prefix " + std::to_string(prefix),
                               question(t.table, letters_of(p), prefix, t.position)});
    return all;
}

test_case branching_question(std::size_t entries) {
    list table = {entry_word(ATOM, 0, 0), entry_word(AND, 0, 0)};
    while (table.size() < entries) table.push_back(entry_word(AND, table.size() - 1, table.size() - 2));
    return question(table, {0}, 0, 0);
}

} // namespace speed
