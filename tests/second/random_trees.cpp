// Random valid trees, by free choice among all rules that can be met, and random damage to trees.
#include "shapes.hpp"

#include "least.hpp"

namespace second {

namespace {

class grower {
public:
    grower(const setting& where, const meaning& truth, random_source& r) : where(where), truth(truth), r(r) {}

    std::vector<std::uint32_t> tree;

    // Adds a tree of the entry's true verdict; false once it has grown too large.
    bool grow(std::size_t entry, std::uint64_t i) {
        const entry_fields e = where.entries[entry];
        const std::vector<node_fields> roots = roots_of(entry, i);
        // Small counts are listed first: half of the time one of these.
        const node_fields root = roots[r.one_in(2) ? r.below(roots.size())
                                                   : r.below(std::min<std::size_t>(roots.size(), 2))];
        tree.push_back(word_of(root));
        if (tree.size() > MAX_TREE) return false;
        const std::uint64_t n = root.number;
        switch (root.rule) {
        case 3: case 4: case 5: case 9: return grow(e.left, i);
        case 6: case 10: return grow(e.right, i);
        case 7: case 8: return grow(e.left, i) && grow(e.right, i);
        case 11: return grow(e.right, i - n) && list(e.left, i - n + 1, n);
        case 12: return grow(e.left, i - n + 1) && list(e.right, i - n + 1, n);
        case 13: return list(e.right, 0, n);
        case 14: return grow(e.right, i + n) && list(e.left, i, n);
        case 15: return grow(e.left, i + n - 1) && list(e.right, i, n);
        case 16: return list(e.right, i, n);
        default: return true;
        }
    }

private:
    bool list(std::size_t entry, std::uint64_t from, std::uint64_t n) {
        for (std::uint64_t k = 0; k < n; ++k)
            if (!grow(entry, from + k)) return false;
        return true;
    }

    // All root words that can be met, counts up to a few laps beyond everything
    // that can matter to a least tree.
    std::vector<node_fields> roots_of(std::size_t entry, std::uint64_t i) const {
        const entry_fields e = where.entries[entry];
        const bool holds = truth.holds(entry, i);
        const auto left = [&](std::uint64_t k) { return truth.holds(e.left, k); };
        const auto right = [&](std::uint64_t k) { return truth.holds(e.right, k); };
        const std::uint64_t reach = i + where.prefix.size() + 9 * where.loop.size() + 3;
        std::vector<node_fields> roots;
        const auto add = [&](std::uint32_t rule, std::uint64_t n) {
            roots.push_back({rule, 0, std::uint32_t(n)});
        };
        switch (e.kind) {
        case ATOM: roots.push_back({holds ? 1u : 2u, e.left, std::uint32_t(i)}); break;
        case NOT: add(holds ? 3 : 4, 0); break;
        case OR:
            if (!holds) add(7, 0);
            if (left(i)) add(5, 0);
            if (right(i)) add(6, 0);
            break;
        case AND:
            if (holds) add(8, 0);
            if (!left(i)) add(9, 0);
            if (!right(i)) add(10, 0);
            break;
        case SINCE:
            for (std::uint64_t n = 0; holds && n <= i; ++n) {
                if (right(i - n)) add(11, n);
                if (!left(i - n)) break;
            }
            for (std::uint64_t n = 1; !holds && n <= i + 1 && !right(i - n + 1); ++n) {
                if (!left(i - n + 1)) add(12, n);
                if (n == i + 1) add(13, n);
            }
            break;
        case UNTIL:
            for (std::uint64_t n = 0; holds && i + n <= reach; ++n) {
                if (right(i + n)) add(14, n);
                if (!left(i + n)) break;
            }
            for (std::uint64_t n = 1; !holds && i + n <= reach && !right(i + n - 1); ++n) {
                if (!left(i + n - 1)) add(15, n);
                if (n == where.endless_count(entry, i)) add(16, n);
            }
            break;
        }
        return roots;
    }

    const setting& where;
    const meaning& truth;
    random_source& r;
};

} // namespace

std::vector<std::uint32_t> random_tree(const test_case& c, random_source& r) {
    const setting where = setting_of(c.prefix, c.loop, c.table);
    const meaning truth(where);
    for (int tries = 0; tries < 4; ++tries) {
        grower g(where, truth, r);
        if (g.grow(c.entry, c.position)) return g.tree;
    }
    least best(where, truth);
    return best.size(c.entry, c.position) <= MAX_TREE ? best.tree(c.entry, c.position)
                                                      : std::vector<std::uint32_t>(MAX_TREE);
}

void damage_tree(std::vector<std::uint32_t>& tree, std::size_t loop, random_source& r) {
    // The rule of the other verdict that looks most like it, or the other rule of the same verdict.
    static const std::uint32_t TURNED[17] = {1, 2, 1, 4, 3, 7, 5, 5, 9, 8, 9, 12, 13, 12, 15, 16, 15};
    if (tree.empty()) { tree.push_back(std::uint32_t(r.next())); return; }
    const std::size_t at = r.below(tree.size());
    node_fields node = node_of(tree[at]);
    const auto put = [&] { tree[at] = word_of({node.rule % 256, node.atom % 256, node.number % 65536}); };
    switch (r.below(15)) {
    case 0: tree.resize(at); break;
    case 1: tree.push_back(tree[at]); break;
    case 2: tree.push_back(std::uint32_t(r.next())); break;
    case 3: tree.erase(tree.begin() + std::ptrdiff_t(at)); break;
    case 4: tree.insert(tree.begin() + std::ptrdiff_t(at), tree[at]); break;
    case 5: std::swap(tree[at], tree[r.below(tree.size())]); break;
    case 6: tree[at] = std::uint32_t(r.next()); break;
    case 7: tree[at] ^= 1u << r.below(32); break;
    case 8: node.rule = node.rule <= 16 ? TURNED[node.rule] : 0; put(); break;
    case 9: node.rule = std::uint32_t(r.below(18)); put(); break;
    case 10: node.atom = std::uint32_t(r.one_in(2) ? r.below(4) : r.below(256)); put(); break;
    case 11: node.number += 1; put(); break;
    case 12: node.number += 65535; put(); break; // one less
    case 13: node.number += std::uint32_t(loop); put(); break;
    case 14:
        node.number = std::uint32_t(r.pick({0, 1, 255, 4094, 4095, 65535, r.below(65536)}));
        put();
        break;
    }
}

} // namespace second
