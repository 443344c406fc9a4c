// What a letter, a table entry and a tree word are made of, and the sixteen rules as one table.
#pragma once

#include <cstddef>
#include <cstdint>
#include <span>
#include <vector>

namespace second {

using words = std::span<const std::uint32_t>;

inline constexpr std::uint32_t ATOM = 0, NOT = 1, OR = 2, AND = 3, SINCE = 4, UNTIL = 5;
inline constexpr std::uint32_t HOLDS = 1, VIOLATED = 2;

// The limits of 01, "Numbers that bound the job".
inline constexpr std::size_t MAX_LETTERS = 48, MAX_ENTRIES = 32, MAX_HEIGHTS = 5, MAX_POSITION = 255;
inline constexpr std::size_t MAX_TREE = 4095, MIN_WORK = 16384, MAX_TEXT = 8192;

// A table entry: its word is kind * 65536 + left * 256 + right.
struct entry_fields {
    std::uint32_t kind, left, right;
};

constexpr entry_fields entry_of(std::uint32_t word) { return {word / 65536, word / 256 % 256, word % 256}; }

// A node of a tree: its word is rule * 16777216 + atom * 65536 + number.
struct node_fields {
    std::uint32_t rule, atom, number;
};

constexpr node_fields node_of(std::uint32_t word) {
    return {word / 16777216, word / 65536 % 256, word % 65536};
}

constexpr std::uint32_t word_of(node_fields node) {
    return node.rule * 16777216 + node.atom * 65536 + node.number;
}

// The kind that a rule proves something of, and the verdict it proves. Index 0 is no rule.
struct rule_row {
    std::uint32_t kind, verdict;
};

inline constexpr rule_row RULES[17] = {
    {},
    {ATOM, HOLDS},      {ATOM, VIOLATED},
    {NOT, HOLDS},       {NOT, VIOLATED},
    {OR, HOLDS},        {OR, HOLDS},      {OR, VIOLATED},
    {AND, HOLDS},       {AND, VIOLATED},  {AND, VIOLATED},
    {SINCE, HOLDS},     {SINCE, VIOLATED}, {SINCE, VIOLATED},
    {UNTIL, HOLDS},     {UNTIL, VIOLATED}, {UNTIL, VIOLATED},
};

// The letters from a position on, as a part of one of the two lists (01, "Schedules").
words view(words prefix, words loop, std::size_t position);

// A schedule and a table that have earned none of refusals 1 to 5.
struct setting {
    std::vector<std::uint32_t> prefix, loop;
    std::vector<entry_fields> entries;
    std::vector<std::uint32_t> past; // past height of each entry

    bool atom_holds(std::uint32_t atom, std::uint64_t position) const;

    // Rule 16's count for an until at a position: m + v - i.
    std::uint64_t endless_count(std::size_t entry, std::uint64_t position) const;
};

// The first of refusals 1 and 2, or of 3 to 5, that lists earn; 0 if none.
std::uint32_t schedule_refusal(words prefix, words loop);
std::uint32_t table_refusal(words table);

// Only for lists without a refusal.
setting setting_of(words prefix, words loop, words table);

} // namespace second
