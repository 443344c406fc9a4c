// The least tree from the filled cells: at each node the first rule, and of that the smallest count, whose
// parts add up to the cell's size.
#include "plain.hpp"

#include "plain_filling.hpp"

#include <algorithm>

namespace plain {

namespace {

using namespace second;

class writer {
public:
    writer(const question& q, const std::uint16_t* work, std::uint32_t* tree)
        : q(q), work(work), next(tree) {}

    void write(std::size_t entry, std::size_t i) {
        const entry_fields e = q.entries[entry];
        const std::uint16_t cell = at(entry, i);
        const bool holds = cell >= HOLDING;
        const std::uint32_t size = cell % HOLDING;
        switch (e.kind) {
        case ATOM: put(holds ? 1 : 2, e.left, i); break;
        case NOT: put(holds ? 3 : 4, 0, 0), write(e.left, i); break;
        case OR:
            if (!holds) put(7, 0, 0), write(e.left, i), write(e.right, i);
            else if (1 + pro(at(e.left, i)) == size) put(5, 0, 0), write(e.left, i);
            else put(6, 0, 0), write(e.right, i);
            break;
        case AND:
            if (holds) put(8, 0, 0), write(e.left, i), write(e.right, i);
            else if (1 + con(at(e.left, i)) == size) put(9, 0, 0), write(e.left, i);
            else put(10, 0, 0), write(e.right, i);
            break;
        case SINCE: holds ? since_holds(e, i, size) : since_violated(e, i, size); break;
        case UNTIL: holds ? until_holds(e, i, size) : until_violated(e, i, size); break;
        }
    }

private:
    std::uint16_t at(std::size_t entry, std::size_t i) const { return work[ROW * entry + i]; }

    void put(std::uint32_t rule, std::uint32_t atom, std::size_t number) {
        *next++ = word_of({rule, atom, std::uint32_t(number)});
    }

    void list(std::size_t entry, std::size_t from, std::size_t n) {
        for (std::size_t k = from; k < from + n; ++k) write(entry, k);
    }

    void since_holds(entry_fields e, std::size_t i, std::uint32_t size) {
        std::size_t n = 0;
        for (std::uint32_t sum = 1; sum + pro(at(e.right, i - n)) != size; ++n) sum += pro(at(e.left, i - n));
        put(11, 0, n), write(e.right, i - n), list(e.left, i - n + 1, n);
    }

    void since_violated(entry_fields e, std::size_t i, std::uint32_t size) {
        std::uint32_t sum = 1;
        for (std::size_t n = 1; n <= i + 1; ++n) {
            sum += con(at(e.right, i + 1 - n));
            if (sum + con(at(e.left, i + 1 - n)) != size) continue;
            put(12, 0, n), write(e.left, i + 1 - n), list(e.right, i + 1 - n, n);
            return;
        }
        put(13, 0, i + 1), list(e.right, 0, i + 1);
    }

    void until_holds(entry_fields e, std::size_t i, std::uint32_t size) {
        std::size_t n = 0;
        for (std::uint32_t sum = 1; sum + pro(at(e.right, i + n)) != size; ++n) sum += pro(at(e.left, i + n));
        put(14, 0, n), write(e.right, i + n), list(e.left, i, n);
    }

    void until_violated(entry_fields e, std::size_t i, std::uint32_t size) {
        const std::size_t all = std::max(i, q.threshold(e.right)) + q.loop.size() - i;
        std::uint32_t sum = 1;
        for (std::size_t n = 1; n <= all; ++n) {
            sum += con(at(e.right, i + n - 1));
            if (sum + con(at(e.left, i + n - 1)) != size) continue;
            put(15, 0, n), write(e.left, i + n - 1), list(e.right, i, n);
            return;
        }
        put(16, 0, all), list(e.right, i, all);
    }

    const question& q;
    const std::uint16_t* work;
    std::uint32_t* next;
};

} // namespace

answer write(words prefix, words loop, words table, std::size_t entry, std::size_t position,
             std::span<std::uint16_t> work, std::span<std::uint32_t> tree) {
    const question q(prefix, loop, table, position);
    fill(q, entry, work.data());
    const std::uint16_t cell = work[ROW * entry + position];
    const std::uint32_t size = cell % HOLDING;
    const std::uint32_t refusal = size == CUT ? 11 : tree.size() < size ? 12 : 0;
    if (refusal == 0) writer(q, work.data(), tree.data()).write(entry, position);
    std::ranges::fill(work.first(MIN_WORK), 0);
    return refusal != 0 ? answer{refusal, 0, 0, 0} : answer{0, 0, cell >= HOLDING ? HOLDS : VIOLATED, size};
}

} // namespace plain
