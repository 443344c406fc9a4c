// Literal minimising: sizes first, over all rules and counts; then the real word lists
// of the candidates of equal size.
//
// No count is left out for lying past a window. A list is given up at the first count after which the rule
// cannot be met any more, or once its members alone cost as much as a tree already found, or as the limit;
// since every tree has a word at least, no greater count is then smaller.
#include "least.hpp"

#include <algorithm>
#include <stdexcept>

namespace second {

least::least(const setting& where, const meaning& truth, std::uint64_t limit)
    : where(where), truth(truth), limit(limit), cells(where.entries.size()), trees(where.entries.size()) {}

// Makes the cells of an entry up to a position, and half as many more.
void least::extend(std::size_t entry, std::uint64_t position) {
    std::vector<cell>& row = cells[entry];
    for (std::uint64_t k = row.size(), end = position + position / 2 + 16; k < end; ++k)
        row.push_back({truth.verdict(entry, k)});
}

// Calls visit(count, size) for each count with which rule 11, 12, 14 or 15 proves the entry; sizes above the
// bound may be left out. The bound may fall meanwhile. All parts of these rules need the rule's own verdict.
template <class Visit>
void least::growing(std::uint32_t rule, std::size_t entry, std::uint64_t i, const std::uint64_t& bound,
                    Visit visit) {
    const entry_fields e = where.entries[entry];
    const std::uint32_t verdict = RULES[rule].verdict;
    const bool back = rule == 11 || rule == 12; // the list reaches back from i, else on from i
    // The first part is right's, one place beyond the list; else left's, at the list's far end.
    const bool beyond = rule == 11 || rule == 14;
    const std::size_t first = beyond ? e.right : e.left, list = beyond ? e.left : e.right;
    const std::uint64_t smallest = beyond ? 0 : 1, greatest = !back ? limit : beyond ? i : i + 1;
    std::uint64_t total = 1; // the node and the members so far
    for (std::uint64_t n = 0; n <= greatest; ++n) {
        const std::uint64_t end = back ? i + 1 - n : i + n - 1; // the far end of a list that is not empty
        if (n > 0) {
            if (at(list, end).verdict != verdict) return; // no greater count can do without this member
            total += size(list, end);
        }
        if (total >= bound) return; // the first part has a word at least
        if (n < smallest) continue;
        const std::uint64_t there = !beyond ? end : back ? end - 1 : end + 1;
        if (!back && !truth.comes(first, verdict, there)) return; // no greater count will find its first part
        if (at(first, there).verdict == verdict) visit(n, total + size(first, there));
    }
}

// The parts of a node in tree order.
std::vector<least::part> least::parts(std::uint32_t rule, std::size_t entry, std::uint64_t i,
                                      std::uint64_t n) const {
    const entry_fields e = where.entries[entry];
    std::vector<part> list;
    const auto run = [&](std::size_t which, std::uint64_t from, std::uint64_t count) {
        for (std::uint64_t k = 0; k < count; ++k) list.push_back({which, from + k});
    };
    switch (rule) {
    case 3: case 4: case 5: case 9: run(e.left, i, 1); break;
    case 6: case 10: run(e.right, i, 1); break;
    case 7: case 8: run(e.left, i, 1); run(e.right, i, 1); break;
    case 11: run(e.right, i - n, 1); run(e.left, i + 1 - n, n); break;
    case 12: run(e.left, i + 1 - n, 1); run(e.right, i + 1 - n, n); break;
    case 13: run(e.right, 0, n); break;
    case 14: run(e.right, i + n, 1); run(e.left, i, n); break;
    case 15: run(e.left, i + n - 1, 1); run(e.right, i, n); break;
    case 16: run(e.right, i, n); break;
    }
    return list;
}

// Calls visit(root word, size) for each root word with which some tree proves the entry at the
// position, with the size of the smallest such tree; sizes above the bound may be left out.
// Rules of both verdicts are tried.
template <class Visit>
void least::candidates(std::size_t entry, std::uint64_t i, const std::uint64_t& bound, Visit visit) {
    const entry_fields e = where.entries[entry];
    for (std::uint32_t rule = 1; rule <= 16; ++rule) {
        if (RULES[rule].kind != e.kind) continue;
        const std::uint32_t verdict = RULES[rule].verdict;
        if (rule <= 2) {
            if (where.atom_holds(e.left, i) == (verdict == HOLDS))
                visit(word_of({rule, e.left, std::uint32_t(i)}), 1);
        } else if (rule == 11 || rule == 12 || rule == 14 || rule == 15) {
            growing(rule, entry, i, bound, [&](std::uint64_t n, std::uint64_t size) {
                visit(word_of({rule, 0, std::uint32_t(n)}), size);
            });
        } else {
            const std::uint64_t n = rule == 13 ? i + 1 : rule == 16 ? where.endless_count(entry, i) : 0;
            const std::uint32_t needed = rule <= 4 ? HOLDS + VIOLATED - verdict : verdict;
            std::uint64_t total = 1;
            bool met = true;
            for (part p : parts(rule, entry, i, n)) {
                met = met && at(p.entry, p.position).verdict == needed && total <= bound;
                if (!met) break;
                total += size(p.entry, p.position);
            }
            if (met) visit(word_of({rule, 0, std::uint32_t(n)}), total);
        }
    }
}

std::uint64_t least::search(std::size_t entry, std::uint64_t position) {
    const std::uint32_t verdict = at(entry, position).verdict;
    std::uint64_t best = limit + 1;
    candidates(entry, position, best, [&](std::uint32_t root, std::uint64_t size) {
        if (RULES[node_of(root).rule].verdict != verdict)
            throw std::logic_error("a tree proves what is not true");
        best = std::min(best, size);
    });
    at(entry, position).size = std::uint32_t(best);
    return best;
}

const std::vector<std::uint32_t>& least::tree(std::size_t entry, std::uint64_t position) {
    if (const auto known = trees[entry].find(position); known != trees[entry].end()) return known->second;
    const std::uint64_t fewest = size(entry, position);
    std::vector<std::uint32_t> best;
    candidates(entry, position, fewest, [&](std::uint32_t root, std::uint64_t size) {
        if (size != fewest) return;
        const node_fields node = node_of(root);
        std::vector<std::uint32_t> list{root};
        for (part p : parts(node.rule, entry, position, node.number)) {
            const auto& below = tree(p.entry, p.position);
            list.insert(list.end(), below.begin(), below.end());
        }
        if (best.empty() || list < best) best = std::move(list);
    });
    return trees[entry][position] = std::move(best);
}

std::vector<std::uint32_t> least::roots(std::size_t entry, std::uint64_t position) {
    const std::uint64_t fewest = size(entry, position);
    std::vector<std::uint32_t> reached;
    candidates(entry, position, fewest, [&](std::uint32_t root, std::uint64_t size) {
        if (size == fewest) reached.push_back(root);
    });
    return reached;
}

} // namespace second
