// Everything that chickvessel.hpp offers, used once. ./run compiles this alone, without exceptions
// and type information and without optimisation, and looks at what it needs: the four calls, and
// nothing that allocates or throws.
#include "chickvessel.hpp"

#include <concepts>

namespace {

using namespace chickvessel;

// A later member of question breaks no caller who names what he gives.
constexpr std::uint32_t LOOP[] = {4, 2};
constexpr question SOME{.loop = LOOP, .position = 3};
static_assert(SOME.prefix.empty() && SOME.table.empty() && SOME.entry == 0 && question{}.position == 0);

static_assert(atom(31) == 0x001f00 && not_(1) == 0x010100);
static_assert(or_(1, 2) == 0x020102 && and_(1, 2) == 0x030102);
static_assert(since(1, 2) == 0x040102 && until(1, 2) == 0x050102);

// All numbers of 01, 1 to 14, have a name, and each its own.
constexpr bool names_differ() {
    for (std::size_t k = 0; k < refusal_names.size(); ++k)
        for (std::size_t l = 0; l < k; ++l)
            if (refusal_names[k] == refusal_names[l] || refusal_names[k].empty()) return false;
    return true;
}
static_assert(refusal_names.size() == 15 && names_differ());
static_assert(std::uint32_t(refusal::empty_loop) == 1 && std::uint32_t(refusal::work_too_short) == 8);
static_assert(std::uint32_t(refusal::no_valid_tree) == 9 && std::uint32_t(refusal::room_too_short) == 12);
static_assert(std::uint32_t(refusal::wrong_line) == 13 && std::uint32_t(refusal::text_too_long) == 14);
static_assert(name(refusal::text_too_long) == "the text is longer than 8192 bytes");
static_assert(name(refusal(15)) == "unknown refusal");
static_assert(name(verdict::holds) == "holds" && name(verdict::violated) == "violated");

static_assert(std::input_iterator<tree_view::iterator>);
static_assert(std::sentinel_for<std::default_sentinel_t, tree_view::iterator>);
static_assert(sizeof(tree_view::iterator) < 1024);
static_assert(std::is_nothrow_copy_constructible_v<tree_view::iterator>);

// A view works in constant expressions too: the tree of 01's example.
constexpr std::uint32_t TABLE[] = {atom(1), atom(0), until(1, 0)};
constexpr std::uint32_t TREE[] = {15u << 24 | 2, 2u << 24 | 1, 2u << 24 | 1 << 16, 2u << 24 | 1 << 16 | 1};
constexpr std::size_t sum_of_positions() {
    std::size_t sum = 0;
    for (const node& n : tree_view({.loop = LOOP, .table = TABLE, .entry = 2}, TREE))
        sum += n.position * 10 + n.parts;
    return sum;
}
static_assert(sum_of_positions() == 23);

} // namespace

// Not called: it is here to be compiled.
std::size_t everything(const question& q, std::span<std::uint16_t> work,
                       std::span<std::uint32_t> tree) noexcept {
    static_assert(noexcept(truth(q, work)) && noexcept(find(q, work)));
    static_assert(noexcept(write(q, work, tree)) && noexcept(check(q, tree)));
    std::size_t sum = truth(q, work).size + find(q, work).place;
    sum += write(q, work, tree).name().size() + name(check(q, tree).verdict).size();
    const tree_view view(q, tree);
    for (tree_view::iterator k = view.begin(); k != view.end(); k++)
        sum += k->index + (*k).depth + (k == view.begin());
    for (const node& n : view) sum += n.entry + n.part;
    return sum;
}
