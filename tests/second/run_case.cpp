// Holding a program against a case: the answer, and every cell of the lent buffers.
#include "cases.hpp"

#include <algorithm>

namespace second {

namespace {

// A buffer to lend, full of junk, with guards before and behind it.
template <class Number> class buffer {
public:
    buffer(std::size_t length, std::uint32_t junk) : cells(length + 2 * GUARD), junk(junk) {
        for (std::size_t k = 0; k < cells.size(); ++k) cells[k] = found(k);
    }

    std::span<Number> lent() { return std::span(cells).subspan(GUARD, cells.size() - 2 * GUARD); }

    // The first cell that is not as it should be, in words: `front` at the beginning of what
    // was lent, junk in all other places.
    std::string unlike(std::span<const Number> front) const {
        for (std::size_t k = 0; k < cells.size(); ++k) {
            const bool in_front = k >= GUARD && k - GUARD < front.size();
            const Number should = in_front ? front[k - GUARD] : found(k);
            const std::int64_t cell = std::int64_t(k) - std::int64_t(GUARD);
            if (cells[k] != should)
                return "cell " + std::to_string(cell) + " is " + std::to_string(cells[k]) + ", not " +
                       std::to_string(should);
        }
        return {};
    }

private:
    static constexpr std::size_t GUARD = 16;

    // Never 0, and seldom the same in two places, so that nothing written or moved looks as found.
    Number found(std::size_t k) const { return Number(std::uint32_t(k * 2654435761u + junk) | 1); }

    std::vector<Number> cells;
    std::uint32_t junk;
};

std::string differing(const answer& got, const answer& expected) {
    return got == expected ? "" : "answered " + text_of(got) + ", not " + text_of(expected);
}

bool clears_work(const answer& a) { return a.number == 0 || a.number == 11 || a.number == 12; }

std::string lent_difference(const test_case& c, const program& p, std::uint32_t junk) {
    static const std::vector<std::uint16_t> zeros(MIN_WORK);
    buffer<std::uint16_t> work(c.work, junk);
    buffer<std::uint32_t> tree(c.room, ~junk);
    const answer got = c.what == call::write
                           ? p.write(c.prefix, c.loop, c.table, c.entry, c.position, work.lent(), tree.lent())
                           : (c.what == call::find ? p.find : p.truth)(c.prefix, c.loop, c.table, c.entry,
                                                                       c.position, work.lent());
    if (const std::string d = differing(got, c.expected); !d.empty()) return d;
    const auto cleared = std::span(zeros).first(clears_work(c.expected) ? zeros.size() : 0);
    if (const std::string d = work.unlike(cleared); !d.empty()) return "work: " + d;
    if (const std::string d = tree.unlike(c.written); !d.empty()) return "tree: " + d;
    return {};
}

std::string view_difference(const test_case& c, const program& p) {
    const words part = p.view(c.prefix, c.loop, c.position);
    const words expected = words(c.of_loop ? c.loop : c.prefix).subspan(c.first, c.count);
    if (part.size() == expected.size() && part.data() == expected.data()) return {};
    return "a part of " + std::to_string(part.size()) + " letters, or not the caller's own list";
}

std::string text_difference(const test_case& c, const program& p) {
    const std::string got = p.explain({reinterpret_cast<const std::uint8_t*>(c.text.data()), c.text.size()});
    return got == c.output ? "" : "printed\n" + got;
}

} // namespace

bool program::offers(call what) const {
    switch (what) {
    case call::truth: return bool(truth);
    case call::find: return bool(find);
    case call::write: return bool(write);
    case call::check: return bool(check);
    case call::view: return bool(view);
    case call::explain: return bool(explain);
    }
    return false;
}

std::string difference(const test_case& c, const program& p, std::uint32_t junk) try {
    switch (c.what) {
    case call::check:
        return differing(p.check(c.prefix, c.loop, c.table, c.entry, c.position, c.tree), c.expected);
    case call::view: return view_difference(c, p);
    case call::explain: return text_difference(c, p);
    default: return lent_difference(c, p, junk);
    }
} catch (const std::exception& e) {
    return std::string("threw: ") + e.what();
}

} // namespace second
