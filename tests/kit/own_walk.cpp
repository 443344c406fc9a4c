// The parts of a node as 01's table lists them, made as a list before any is walked.
#include "own_walk.hpp"

namespace kit {

namespace {

struct claim {
    std::size_t entry, position;
};

std::vector<claim> parts_of(second::node_fields node, second::entry_fields e, std::size_t i) {
    const std::size_t n = node.number;
    std::vector<claim> parts;
    const auto list = [&](std::size_t entry, std::size_t from, std::size_t to) { // both ends are in it
        for (std::size_t k = from; k < to + 1; ++k) parts.push_back({entry, k});
    };
    switch (node.rule) {
    case 3: case 4: case 5: case 9: parts = {{e.left, i}}; break;
    case 6: case 10: parts = {{e.right, i}}; break;
    case 7: case 8: parts = {{e.left, i}, {e.right, i}}; break;
    case 11: parts = {{e.right, i - n}}, list(e.left, i - n + 1, i); break;
    case 12: parts = {{e.left, i - n + 1}}, list(e.right, i - n + 1, i); break;
    case 13: list(e.right, 0, i); break;
    case 14: parts = {{e.right, i + n}}, list(e.left, i, i + n - 1); break;
    case 15: parts = {{e.left, i + n - 1}}, list(e.right, i, i + n - 1); break;
    case 16: list(e.right, i, i + n - 1); break;
    }
    return parts;
}

class walker {
public:
    walker(second::words table, second::words tree) : table(table), tree(tree) {}

    void walk(claim at, std::size_t depth, std::size_t part) {
        const second::node_fields node = second::node_of(tree[nodes.size()]);
        const std::vector<claim> parts = parts_of(node, second::entry_of(table[at.entry]), at.position);
        chickvessel::node n;
        n.rule = node.rule;
        n.kind = chickvessel::kind(second::RULES[node.rule].kind);
        n.verdict = chickvessel::verdict(second::RULES[node.rule].verdict);
        n.entry = at.entry, n.position = at.position;
        n.atom = node.atom, n.count = node.rule >= 11 ? node.number : 0;
        n.parts = parts.size(), n.depth = depth, n.part = part, n.index = nodes.size();
        nodes.push_back(n);
        for (std::size_t k = 0; k < parts.size(); ++k) walk(parts[k], depth + 1, k);
    }

    std::vector<chickvessel::node> nodes;

private:
    second::words table, tree;
};

} // namespace

std::vector<chickvessel::node> own_walk(const chickvessel::question& q, second::words tree) {
    walker w(q.table, tree);
    w.walk({q.entry, q.position}, 0, 0);
    return w.nodes;
}

std::string line_of(const chickvessel::node& n) {
    std::string s = "rule " + std::to_string(n.rule) + ", kind " + std::to_string(std::uint32_t(n.kind)) +
                    ", " + std::string(chickvessel::name(n.verdict));
    const std::pair<const char*, std::size_t> fields[] = {
        {"entry", n.entry}, {"position", n.position}, {"atom", n.atom}, {"count", n.count},
        {"parts", n.parts}, {"depth", n.depth},       {"part", n.part}, {"index", n.index}};
    for (const auto& [name, value] : fields) s += std::string(", ") + name + " " + std::to_string(value);
    return s;
}

} // namespace kit
