// The rule table of 01 as it stands there, used twice: to list trees, and to say which words may stand next.
#include "enumerate.hpp"

#include <algorithm>

namespace second {

namespace {

constexpr std::size_t TOO_MANY = 60000;

unsigned kind(std::uint32_t entry) { return entry >> 16; }
unsigned left(std::uint32_t entry) { return entry >> 8 & 255; }
unsigned right(std::uint32_t entry) { return entry & 255; }

constexpr unsigned KIND[] = {9, 0, 0, 1, 1, 2, 2, 2, 3, 3, 3, 4, 4, 4, 5, 5, 5};
constexpr bool HOLDING[] = {false, true,  false, true,  false, true,  true, false, true,
                            false, false, true,  false, false, true,  false, false};

} // namespace

enumerator::enumerator(list prefix, list loop, list table)
    : prefix(prefix), loop(loop), table(table), past(table.size(), 0) {
    // Heights settle from below: after as many rounds as there are entries nothing moves any more.
    for (std::size_t round = 0; round < table.size(); ++round)
        for (std::size_t k = 0; k < table.size(); ++k) {
            const bool since = kind(table[k]) == 4;
            if (kind(table[k]) >= 1) past[k] = std::max(past[k], past[left(table[k])] + since);
            if (kind(table[k]) >= 2) past[k] = std::max(past[k], past[right(table[k])] + since);
        }
}

bool enumerator::letter_has(std::uint32_t atom, std::uint64_t position) const {
    if (position < prefix.size()) return prefix[position] & 1u << atom;
    position -= prefix.size();
    position -= position / loop.size() * loop.size();
    return loop[position] & 1u << atom;
}

// What a rule with a number needs at i, in tree order; nothing if it proves nothing there.
std::optional<std::vector<enumerator::claim>> enumerator::needs(unsigned rule, std::size_t entry,
                                                                std::uint64_t i, std::uint64_t number) const {
    const std::size_t l = left(table[entry]), r = right(table[entry]);
    const std::uint64_t n = number, u = prefix.size(), v = loop.size();
    const auto only = [](bool fits, std::vector<claim> claims) {
        return fits ? std::optional(std::move(claims)) : std::nullopt;
    };
    switch (rule) {
    case 1: return only(letter_has(std::uint32_t(l), i) && number == i, {});
    case 2: return only(!letter_has(std::uint32_t(l), i) && number == i, {});
    case 3: return only(number == 0, {{l, i, i + 1, false}});
    case 4: return only(number == 0, {{l, i, i + 1, true}});
    case 5: return only(number == 0, {{l, i, i + 1, true}});
    case 6: return only(number == 0, {{r, i, i + 1, true}});
    case 7: return only(number == 0, {{l, i, i + 1, false}, {r, i, i + 1, false}});
    case 8: return only(number == 0, {{l, i, i + 1, true}, {r, i, i + 1, true}});
    case 9: return only(number == 0, {{l, i, i + 1, false}});
    case 10: return only(number == 0, {{r, i, i + 1, false}});
    case 11: return only(n <= i, {{r, i - n, i - n + 1, true}, {l, i - n + 1, i + 1, true}});
    case 12:
        return only(1 <= n && n <= i + 1, {{l, i - n + 1, i - n + 2, false}, {r, i - n + 1, i + 1, false}});
    case 13: return only(n == i + 1, {{r, 0, i + 1, false}});
    case 14: return only(true, {{r, i + n, i + n + 1, true}, {l, i, i + n, true}});
    case 15: return only(n >= 1, {{l, i + n - 1, i + n, false}, {r, i, i + n, false}});
    case 16: {
        const std::uint64_t m = std::max(i, u + v * past[r]);
        return only(n == m + v - i, {{r, i, m + v, false}});
    }
    }
    return std::nullopt;
}

std::uint32_t enumerator::word(unsigned rule, std::size_t entry, std::uint64_t number) const {
    const std::uint32_t atom = rule <= 2 ? left(table[entry]) : 0;
    return std::uint32_t(rule << 24 | atom << 16 | number);
}

// All ways to prove the claims one after the other with exactly so many words.
std::vector<enumerator::tree> enumerator::rows(const std::vector<claim>& claims, std::size_t words) {
    if (claims.empty()) return words == 0 ? std::vector<tree>{{}} : std::vector<tree>{};
    claim head = claims[0];
    std::vector<claim> tail(claims.begin() + 1, claims.end());
    if (head.from == head.to) return rows(tail, words);
    tail.insert(tail.begin(), {head.entry, head.from + 1, head.to, head.holding});
    std::size_t due = 0; // the other claims have a word each at least
    for (claim c : tail) due += c.to - c.from;
    std::vector<tree> found;
    for (std::size_t spent = 1; spent + due <= words && !full; ++spent) {
        const std::vector<tree>& heads = trees(head.entry, head.from, head.holding, spent);
        if (heads.empty()) continue;
        for (const tree& rest : rows(tail, words - spent))
            for (const tree& first : heads) {
                found.push_back(first);
                found.back().insert(found.back().end(), rest.begin(), rest.end());
                if (++listed > TOO_MANY) full = true;
                if (full) return found;
            }
    }
    return found;
}

const std::vector<enumerator::tree>& enumerator::trees(std::size_t entry, std::uint64_t position,
                                                       bool holding, std::size_t words) {
    const std::vector<std::uint64_t> key{entry, position, holding, words};
    if (const auto at = known.find(key); at != known.end()) return at->second;
    std::vector<tree> found;
    for (unsigned rule = 1; rule <= 16; ++rule) {
        if (KIND[rule] != kind(table[entry]) || HOLDING[rule] != holding) continue;
        // The number of an atom's word is its position; a count has as many words behind it at least.
        const std::uint64_t last = rule <= 2 ? position : words;
        for (std::uint64_t number = 0; number <= last; ++number) {
            const auto claims = needs(rule, entry, position, number);
            if (!claims) continue;
            for (tree& below : rows(*claims, words - 1)) {
                below.insert(below.begin(), word(rule, entry, number));
                found.push_back(std::move(below));
            }
        }
    }
    return known[key] = std::move(found);
}

// A pile of claims still to be proved, the next one on top. A word may stand next if some rule
// of the top claim's kind and verdict, with the number in the word's low half, needs something
// there and has exactly this word.
std::optional<std::size_t> enumerator::break_of(std::size_t entry, std::uint64_t position, list words) const {
    std::vector<claim> pile;
    for (std::size_t k = 0; k < words.size(); ++k) {
        while (!pile.empty() && pile.back().from == pile.back().to) pile.pop_back();
        if (k > 0 && pile.empty()) return k;
        const claim next = k == 0 ? claim{entry, position, position + 1, false} : pile.back();
        std::optional<std::vector<claim>> below;
        for (unsigned rule = 1; rule <= 16 && !below; ++rule) {
            const std::uint64_t number = words[k] & 65535;
            if (KIND[rule] != kind(table[next.entry]) || (k > 0 && HOLDING[rule] != next.holding)) continue;
            if (word(rule, next.entry, number) == words[k])
                below = needs(rule, next.entry, next.from, number);
        }
        if (!below) return k;
        if (k > 0) ++pile.back().from;
        pile.insert(pile.end(), below->rbegin(), below->rend());
    }
    while (!pile.empty() && pile.back().from == pile.back().to) pile.pop_back();
    if (words.empty() || !pile.empty()) return words.size();
    return std::nullopt;
}

} // namespace second
