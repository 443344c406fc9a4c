// The four calls: the order of refusals, the answers, and what is left in the lent buffers.
#include "reference.hpp"

#include "check.hpp"
#include "least.hpp"

#include <algorithm>
#include <optional>

namespace second {

struct engine::inside {
    explicit inside(setting s) : where(std::move(s)) {}

    // The checker needs neither meaning nor sizes, so they are made when first asked for.
    const meaning& meant() { return meant_ ? *meant_ : meant_.emplace(where); }
    least& best() { return best_ ? *best_ : best_.emplace(where, meant()); }

    const setting where;

private:
    std::optional<meaning> meant_;
    std::optional<least> best_;
};

engine::engine(words prefix, words loop, words table) : refusal(schedule_refusal(prefix, loop)) {
    if (refusal == 0) refusal = table_refusal(table);
    if (refusal == 0) in = std::make_unique<inside>(setting_of(prefix, loop, table));
}

engine::~engine() = default;

std::uint32_t engine::asked_refusal(std::size_t entry, std::size_t position) const {
    if (refusal != 0) return refusal;
    if (entry >= in->where.entries.size()) return 6;
    if (position > MAX_POSITION) return 7;
    return 0;
}

std::uint32_t engine::lent_refusal(std::size_t entry, std::size_t position,
                                   std::span<std::uint16_t> work) const {
    if (const std::uint32_t number = asked_refusal(entry, position)) return number;
    return work.size() < MIN_WORK ? 8 : 0;
}

namespace {

void clear(std::span<std::uint16_t> work) { std::ranges::fill(work.first(MIN_WORK), 0); }

} // namespace

answer engine::truth(std::size_t entry, std::size_t position, std::span<std::uint16_t> work) {
    if (const std::uint32_t number = lent_refusal(entry, position, work)) return {number};
    clear(work);
    return {0, 0, in->meant().verdict(entry, position), 0};
}

answer engine::find(std::size_t entry, std::size_t position, std::span<std::uint16_t> work) {
    if (const std::uint32_t number = lent_refusal(entry, position, work)) return {number};
    clear(work);
    const std::uint64_t size = in->best().size(entry, position);
    if (size > MAX_TREE) return {11};
    return {0, 0, in->meant().verdict(entry, position), std::uint32_t(size)};
}

answer engine::write(std::size_t entry, std::size_t position, std::span<std::uint16_t> work,
                     std::span<std::uint32_t> tree) {
    const answer found = find(entry, position, work);
    if (found.number != 0) return found;
    if (tree.size() < found.size) return {12};
    const std::vector<std::uint32_t>& words = in->best().tree(entry, position);
    std::ranges::copy(words, tree.begin());
    return {0, 0, RULES[node_of(words[0]).rule].verdict, std::uint32_t(words.size())};
}

answer engine::check(std::size_t entry, std::size_t position, words tree) const {
    if (const std::uint32_t number = asked_refusal(entry, position)) return {number};
    if (tree.size() > MAX_TREE) return {10};
    const walk_end end = walk(in->where, entry, position, tree);
    return end.verdict != 0 ? answer{0, 0, end.verdict, 0} : answer{9, end.place, 0, 0};
}

answer truth(words prefix, words loop, words table, std::size_t entry, std::size_t position,
             std::span<std::uint16_t> work) {
    return engine(prefix, loop, table).truth(entry, position, work);
}

answer find(words prefix, words loop, words table, std::size_t entry, std::size_t position,
            std::span<std::uint16_t> work) {
    return engine(prefix, loop, table).find(entry, position, work);
}

answer write(words prefix, words loop, words table, std::size_t entry, std::size_t position,
             std::span<std::uint16_t> work, std::span<std::uint32_t> tree) {
    return engine(prefix, loop, table).write(entry, position, work, tree);
}

answer check(words prefix, words loop, words table, std::size_t entry, std::size_t position, words tree) {
    return engine(prefix, loop, table).check(entry, position, tree);
}

} // namespace second
