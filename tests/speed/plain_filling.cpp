// A bounded number of steps a cell: since goes up and until goes down, each with a state that holds
// the best of all witnesses so far.
#include "plain_filling.hpp"

#include <algorithm>

namespace plain {

namespace {

using namespace second;

std::uint32_t least(std::uint32_t a, std::uint32_t b) { return std::min({a, b, CUT}); }

std::uint16_t cell_of(bool holds, std::uint32_t pro, std::uint32_t con) {
    return std::uint16_t(holds ? HOLDING + pro : con);
}

// The best since or until with a witness up to the neighbour's place.
struct state {
    bool holds;
    std::uint32_t pro, con;

    void step(std::uint16_t left, std::uint16_t right) {
        holds = right >= HOLDING || (left >= HOLDING && holds);
        pro = least(1 + plain::pro(right), pro + plain::pro(left));
        con = least(1 + plain::con(left) + plain::con(right), con + plain::con(right));
    }
};

void fill_atom(const question& q, std::uint32_t atom, std::size_t columns, std::uint16_t* row) {
    std::size_t k = 0;
    for (std::uint32_t letter : q.prefix) row[k++] = cell_of(letter >> atom & 1, 1, 1);
    while (k < columns)
        for (std::uint32_t letter : q.loop) {
            if (k == columns) return;
            row[k++] = cell_of(letter >> atom & 1, 1, 1);
        }
}

void fill_not(const std::uint16_t* part, std::size_t columns, std::uint16_t* row) {
    for (std::size_t k = 0; k < columns; ++k)
        row[k] = cell_of(part[k] < HOLDING, least(1 + con(part[k]), CUT), least(1 + pro(part[k]), CUT));
}

void fill_or(const std::uint16_t* a, const std::uint16_t* b, std::size_t columns, std::uint16_t* row) {
    for (std::size_t k = 0; k < columns; ++k)
        row[k] = cell_of(a[k] >= HOLDING || b[k] >= HOLDING, least(1 + pro(a[k]), 1 + pro(b[k])),
                         least(1 + con(a[k]) + con(b[k]), CUT));
}

void fill_and(const std::uint16_t* a, const std::uint16_t* b, std::size_t columns, std::uint16_t* row) {
    for (std::size_t k = 0; k < columns; ++k)
        row[k] = cell_of(a[k] >= HOLDING && b[k] >= HOLDING, least(1 + pro(a[k]) + pro(b[k]), CUT),
                         least(1 + con(a[k]), 1 + con(b[k])));
}

// The 1 to begin with is rule 13 with no members: it grows by a member at each place.
void fill_since(const std::uint16_t* a, const std::uint16_t* b, std::size_t columns, std::uint16_t* row) {
    state x{false, CUT, 1};
    for (std::size_t k = 0; k < columns; ++k) x.step(a[k], b[k]), row[k] = cell_of(x.holds, x.pro, x.con);
}

// From a lap above the row. Rule 16 is taken in at the store only; its list, from k to a lap past the larger
// of k and the threshold, is a sum that slides, kept whole so that something can be taken away from it.
void fill_until(const std::uint16_t* a, const std::uint16_t* b, std::size_t columns, std::size_t lap,
                std::size_t threshold, std::uint16_t* row) {
    state x{false, CUT, CUT};
    std::uint32_t list = 0;
    for (std::size_t k = columns + lap; k-- > columns;) x.step(a[k], b[k]), list += con(b[k]);
    for (std::size_t k = columns; k-- > 0;) {
        x.step(a[k], b[k]);
        list += con(b[k]);
        if (k >= threshold) list -= con(b[k + lap]);
        row[k] = cell_of(x.holds, x.pro, least(x.con, 1 + list));
    }
}

} // namespace

question::question(words prefix, words loop, words table, std::size_t position)
    : prefix(prefix), loop(loop), reach(std::max(prefix.size(), position + 1)) {
    for (std::size_t k = 0; k < table.size(); ++k) {
        const entry_fields e = entries[k] = entry_of(table[k]);
        past[k] = future[k] = 0;
        if (e.kind != ATOM) past[k] = past[e.left], future[k] = future[e.left];
        if (e.kind >= OR)
            past[k] = std::max(past[k], past[e.right]), future[k] = std::max(future[k], future[e.right]);
        past[k] += e.kind == SINCE, future[k] += e.kind == UNTIL;
    }
}

void fill(const question& q, std::size_t entry, std::uint16_t* work) {
    for (std::size_t k = 0; k <= entry; ++k) {
        const entry_fields e = q.entries[k];
        const std::uint16_t *left = work + ROW * e.left, *right = work + ROW * e.right;
        std::uint16_t* const row = work + ROW * k;
        const std::size_t columns = q.columns(k);
        switch (e.kind) {
        case ATOM: fill_atom(q, e.left, columns, row); break;
        case NOT: fill_not(left, columns, row); break;
        case OR: fill_or(left, right, columns, row); break;
        case AND: fill_and(left, right, columns, row); break;
        case SINCE: fill_since(left, right, columns, row); break;
        case UNTIL: fill_until(left, right, columns, q.loop.size(), q.threshold(e.right), row); break;
        }
    }
}

} // namespace plain
