// A straight recursion in tree order. Positions are exact; a count is never held
// against the words that are left.
#include "check.hpp"

namespace second {

namespace {

class walker {
public:
    walker(const setting& where, words tree) : where(where), tree(tree) {}

    std::size_t next = 0; // the first word not yet accepted

    // Takes the part that begins at `next` for a claim, the verdict 0 being any; stops at the first word
    // that breaks a rule of its own node.
    bool part(std::size_t entry, std::uint64_t i, std::uint32_t verdict) {
        if (next == tree.size()) return false;
        const node_fields node = node_of(tree[next]);
        const entry_fields e = where.entries[entry];
        if (!well_formed(node)) return false;
        const auto [kind, proved] = RULES[node.rule];
        if (kind != e.kind || (kind == ATOM && node.atom != e.left)) return false;
        if (verdict != 0 && verdict != proved) return false;
        if (!count_fits(node, entry, i)) return false;
        if (kind == ATOM && node.number != i) return false;
        if (kind == ATOM && where.atom_holds(e.left, i) != (proved == HOLDS)) return false;
        ++next;
        return parts(node.rule, node.number, e, i);
    }

private:
    static bool well_formed(node_fields node) {
        if (node.rule < 1 || node.rule > 16) return false;
        if (node.rule > 2 && node.atom != 0) return false;
        return node.rule <= 2 || node.rule >= 11 || node.number == 0;
    }

    bool count_fits(node_fields node, std::size_t entry, std::uint64_t i) const {
        const std::uint64_t n = node.number;
        switch (node.rule) {
        case 11: return n <= i;
        case 12: return 1 <= n && n <= i + 1;
        case 13: return n == i + 1;
        case 15: return 1 <= n;
        case 16: return n == where.endless_count(entry, i);
        default: return true;
        }
    }

    bool parts(std::uint32_t rule, std::uint64_t n, entry_fields e, std::uint64_t i) {
        switch (rule) {
        case 3: return part(e.left, i, VIOLATED);
        case 4: return part(e.left, i, HOLDS);
        case 5: return part(e.left, i, HOLDS);
        case 6: return part(e.right, i, HOLDS);
        case 7: return part(e.left, i, VIOLATED) && part(e.right, i, VIOLATED);
        case 8: return part(e.left, i, HOLDS) && part(e.right, i, HOLDS);
        case 9: return part(e.left, i, VIOLATED);
        case 10: return part(e.right, i, VIOLATED);
        case 11: return part(e.right, i - n, HOLDS) && list(e.left, i - n + 1, n, HOLDS);
        case 12: return part(e.left, i + 1 - n, VIOLATED) && list(e.right, i + 1 - n, n, VIOLATED);
        case 13: return list(e.right, 0, n, VIOLATED);
        case 14: return part(e.right, i + n, HOLDS) && list(e.left, i, n, HOLDS);
        case 15: return part(e.left, i + n - 1, VIOLATED) && list(e.right, i, n, VIOLATED);
        case 16: return list(e.right, i, n, VIOLATED);
        default: return true;
        }
    }

    bool list(std::size_t entry, std::uint64_t from, std::uint64_t n, std::uint32_t verdict) {
        for (std::uint64_t k = 0; k < n; ++k)
            if (!part(entry, from + k, verdict)) return false;
        return true;
    }

    const setting& where;
    const words tree;
};

} // namespace

walk_end walk(const setting& where, std::size_t entry, std::uint64_t position, words tree) {
    walker w(where, tree);
    const bool valid = w.part(entry, position, 0) && w.next == tree.size();
    return {valid ? RULES[node_of(tree[0]).rule].verdict : 0, std::uint32_t(w.next)};
}

} // namespace second
