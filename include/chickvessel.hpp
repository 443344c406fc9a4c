// chickvessel.hpp: the calls of chickvessel.h for C++20, over spans, and a view that walks a tree for
// drawing. chickvessel.h says what schedules, tables, trees and refusals are, and what each call leaves in
// the buffers that it is lent; all of that holds here unchanged.
//
// Header only. Throws nothing, allocates nothing, needs neither exceptions nor type
// information: everything is noexcept.
//
//     const std::uint32_t prefix[] = {1}, loop[] = {4, 2};
//     const std::uint32_t table[] = {chickvessel::atom(1), chickvessel::atom(0), chickvessel::until(1, 0)};
//     static chickvessel::work_slice work; // lent, kept by the caller: 32 KiB
//     static chickvessel::tree_room room;  // 16 KiB
//     const chickvessel::question q{.prefix = prefix, .loop = loop, .table = table, .entry = 2};
//     if (const chickvessel::answer a = chickvessel::write(q, work, room))
//         for (const chickvessel::node& n : chickvessel::tree_view(q, std::span(room).first(a.size)))
//             draw(n);
//     else
//         complain(a.name(), a.place);
//
// The functions are declared so that a function-like macro of the same name, such as the check(x) of some
// game engines, does not expand in this file. Where there is such a macro, a call has parentheses round the
// name: (chickvessel::check)(q, tree).
#ifndef CHICKVESSEL_HPP
#define CHICKVESSEL_HPP

#if (defined(_MSVC_LANG) ? _MSVC_LANG : __cplusplus) <= 201703L
#error "chickvessel.hpp needs C++20: compile with -std=c++20 or later"
#else

#include "chickvessel.h"

#include <array>
#include <cstddef>
#include <cstdint>
#include <iterator>
#include <span>
#include <string_view>

namespace chickvessel {

// ---- Limits (refusals 2, 3, 5, 7, 8, 10, 11)

inline constexpr std::size_t max_letters = CHICKVESSEL_MAX_LETTERS, max_entries = CHICKVESSEL_MAX_ENTRIES;
inline constexpr std::size_t max_heights = CHICKVESSEL_MAX_HEIGHTS, max_position = CHICKVESSEL_MAX_POSITION;
inline constexpr std::size_t max_tree = CHICKVESSEL_MAX_TREE, min_work = CHICKVESSEL_MIN_WORK;

using letters = std::span<const std::uint32_t>;
using words = std::span<const std::uint32_t>;
using work_slice = std::array<std::uint16_t, min_work>;
using tree_room = std::array<std::uint32_t, max_tree>;

// ---- Entries of a table

// Some names end in _ because C++ has the plain ones for itself.
enum class kind : std::uint32_t { atom, not_, or_, and_, since, until };

// The word of an entry; left and right are indices of earlier entries. A field past 255 has no room in the
// word and becomes 255, which no table takes, as kind, as atom or as entry: so it is refused with 4, and
// never answered as another rule.
constexpr std::uint32_t (entry_word)(kind what, std::size_t left, std::size_t right) noexcept {
    const auto field = [](std::size_t value) { return std::uint32_t(value > 255 ? 255 : value); };
    return field(std::size_t(what)) << 16 | field(left) << 8 | field(right);
}

constexpr std::uint32_t (atom)(std::size_t number) noexcept { return (entry_word)(kind::atom, number, 0); }
constexpr std::uint32_t (not_)(std::size_t left) noexcept { return (entry_word)(kind::not_, left, 0); }
constexpr std::uint32_t (or_)(std::size_t left, std::size_t right) noexcept {
    return (entry_word)(kind::or_, left, right);
}
constexpr std::uint32_t (and_)(std::size_t left, std::size_t right) noexcept {
    return (entry_word)(kind::and_, left, right);
}
constexpr std::uint32_t (since)(std::size_t left, std::size_t right) noexcept {
    return (entry_word)(kind::since, left, right);
}
constexpr std::uint32_t (until)(std::size_t left, std::size_t right) noexcept {
    return (entry_word)(kind::until, left, right);
}

// ---- Questions

// What every call is asked. Name the members that you give (.prefix = ..), and leave out those whose default
// will do: a member that comes later has a default too, so it breaks no caller.
struct question {
    letters prefix{}, loop{};
    words table{};
    std::size_t entry = 0, position = 0;
};

// ---- Answers

enum class verdict : std::uint32_t { none, holds = CHICKVESSEL_HOLDS, violated = CHICKVESSEL_VIOLATED };

constexpr std::string_view (name)(verdict v) noexcept {
    return v == verdict::holds ? "holds" : v == verdict::violated ? "violated" : "none";
}

enum class refusal : std::uint32_t {
    none,
    empty_loop = CHICKVESSEL_EMPTY_LOOP,
    too_many_letters = CHICKVESSEL_TOO_MANY_LETTERS,
    bad_entry_count = CHICKVESSEL_BAD_ENTRY_COUNT,
    bad_entry = CHICKVESSEL_BAD_ENTRY,
    too_high = CHICKVESSEL_TOO_HIGH,
    no_such_entry = CHICKVESSEL_NO_SUCH_ENTRY,
    position_too_far = CHICKVESSEL_POSITION_TOO_FAR,
    work_too_short = CHICKVESSEL_WORK_TOO_SHORT,
    no_valid_tree = CHICKVESSEL_NO_VALID_TREE, // has a place
    tree_too_long = CHICKVESSEL_TREE_TOO_LONG,
    least_too_large = CHICKVESSEL_LEAST_TOO_LARGE,
    room_too_short = CHICKVESSEL_ROOM_TOO_SHORT,
    wrong_line = CHICKVESSEL_WRONG_LINE, // has a line; of texts alone
    text_too_long = CHICKVESSEL_TEXT_TOO_LONG, // of texts alone
};

// What each refusal means, by its number.
inline constexpr std::array<std::string_view, 15> refusal_names = {
    "not refused",
    "the loop is empty",
    "more than 48 letters",
    "no entry, or more than 32",
    "some entry breaks the kind table",
    "some entry's two heights add up to more than 5",
    "the asked entry is not in the table",
    "the asked position is above 255",
    "the work slice is shorter than 16384",
    "the words are no valid tree",
    "the tree has more than 4095 words",
    "the least tree has more than 4095 words",
    "the tree buffer is shorter than the least tree",
    "a line of the text is wrong",
    "the text is longer than 8192 bytes",
};

constexpr std::string_view (name)(refusal r) noexcept {
    return std::size_t(r) < refusal_names.size() ? refusal_names[std::size_t(r)]
                                                 : std::string_view("unknown refusal");
}

// A verdict, or a refusal with its name and place. True if it is a verdict.
struct [[nodiscard]] answer {
    refusal refused = refusal::none;
    std::size_t place = 0; // of no_valid_tree, an index into the words; else 0
    chickvessel::verdict verdict = chickvessel::verdict::none;
    std::size_t size = 0; // from find and write, in words; else 0

    constexpr explicit operator bool() const noexcept { return refused == refusal::none; }
    constexpr std::string_view (name)() const noexcept { return (chickvessel::name)(refused); }
    constexpr bool operator==(const answer&) const noexcept = default;
};

[[nodiscard]] constexpr answer (answer_of)(const chickvessel_answer& a) noexcept {
    return {refusal{a.number}, a.place, verdict{a.verdict}, a.size};
}

// ---- The calls

// The verdict.
[[nodiscard]] inline answer (truth)(const question& q, std::span<std::uint16_t> work) noexcept {
    return (answer_of)(chickvessel_truth(q.prefix.data(), q.prefix.size(), q.loop.data(), q.loop.size(),
                                         q.table.data(), q.table.size(), q.entry, q.position,
                                         work.data(), work.size()));
}

// The verdict and the size of the least tree.
[[nodiscard]] inline answer (find)(const question& q, std::span<std::uint16_t> work) noexcept {
    return (answer_of)(chickvessel_find(q.prefix.data(), q.prefix.size(), q.loop.data(), q.loop.size(),
                                        q.table.data(), q.table.size(), q.entry, q.position,
                                        work.data(), work.size()));
}

// The verdict and the least tree itself: answer.size words at the front of tree. Neither work
// nor tree may overlap anything else.
[[nodiscard]] inline answer (write)(const question& q, std::span<std::uint16_t> work,
                                    std::span<std::uint32_t> tree) noexcept {
    return (answer_of)(chickvessel_write(q.prefix.data(), q.prefix.size(), q.loop.data(), q.loop.size(),
                                         q.table.data(), q.table.size(), q.entry, q.position,
                                         work.data(), work.size(), tree.data(), tree.size()));
}

// Whether the words are a valid tree, and the verdict that it proves.
[[nodiscard]] inline answer (check)(const question& q, words tree) noexcept {
    return (answer_of)(chickvessel_check(q.prefix.data(), q.prefix.size(), q.loop.data(), q.loop.size(),
                                         q.table.data(), q.table.size(), q.entry, q.position,
                                         tree.data(), tree.size()));
}

// ---- Trees, for drawing

// The kind that a rule proves something of, and the verdict it proves. Row 0 is no rule.
struct rule_row {
    chickvessel::kind kind;
    chickvessel::verdict verdict;
};

inline constexpr std::array<rule_row, 17> rules = {{
    {kind::atom, verdict::none},
    {kind::atom, verdict::holds},  {kind::atom, verdict::violated},
    {kind::not_, verdict::holds},  {kind::not_, verdict::violated},
    {kind::or_, verdict::holds},   {kind::or_, verdict::holds},       {kind::or_, verdict::violated},
    {kind::and_, verdict::holds},  {kind::and_, verdict::violated},   {kind::and_, verdict::violated},
    {kind::since, verdict::holds}, {kind::since, verdict::violated},  {kind::since, verdict::violated},
    {kind::until, verdict::holds}, {kind::until, verdict::violated},  {kind::until, verdict::violated},
}};

// What one word of a tree says, and where in the tree it stands.
struct node {
    std::uint32_t rule = 0; // 1 to 16
    chickvessel::kind kind = chickvessel::kind::atom;
    chickvessel::verdict verdict = chickvessel::verdict::none;
    std::size_t entry = 0;    // it proves that verdict of this entry
    std::size_t position = 0; // at this position
    std::size_t atom = 0;     // rules 1 and 2: the atom; in other nodes of a tree 0
    std::size_t count = 0;    // rules 11 to 16: how many of the parts, the last ones, are list members
    std::size_t parts = 0;    // how many parts it has, each with all that is below it
    std::size_t depth = 0;    // 0 for the root
    std::size_t part = 0;     // which of its parent's parts it is, from 0
    std::size_t index = 0;    // of its word
};

// The nodes of a tree in the order of its words: a node, then all that is below its first part, and so on. It
// walks words that check accepts for the question to their end. Other words it walks as far as they read like
// a tree and then stops; it never reads outside the lists. The question's lists and the words are not copied,
// and must outlive the view and its iterators.
//
// whole() says whether the words read like a tree to their end: none missing, none left over. It is true of
// every tree that check accepts, and false of one that was cut or lengthened; other words can be whole and no
// valid tree, for the view looks at no letter. A view walks all words to say it; an iterator knows it once it
// has come to the end, so who draws with one need not walk twice.
//
// An iterator holds the way down to its node: at most 32 levels, since the entry of a part is earlier than
// the one of its node. It takes less than 1 KiB.
class tree_view {
public:
    class iterator;

    constexpr tree_view(const question& q, words tree) noexcept : asked(q), list(tree) {}

    constexpr iterator begin() const noexcept;
    constexpr std::default_sentinel_t end() const noexcept { return {}; }
    [[nodiscard]] constexpr bool (whole)() const noexcept;

private:
    question asked;
    words list;
};

class tree_view::iterator {
public:
    using iterator_concept = std::input_iterator_tag; // the node that it points at is its own
    using value_type = node;
    using difference_type = std::ptrdiff_t;

    constexpr iterator() noexcept = default;

    constexpr const node& operator*() const noexcept { return now; }
    constexpr const node* operator->() const noexcept { return &now; }

    constexpr iterator& operator++() noexcept {
        next();
        return *this;
    }

    constexpr iterator operator++(int) noexcept {
        const iterator before = *this;
        next();
        return before;
    }

    // Whether it has come to the end, and that was the end of the words too. False before.
    [[nodiscard]] constexpr bool (whole)() const noexcept { return ended; }

    constexpr bool operator==(std::default_sentinel_t) const noexcept { return over; }
    constexpr bool operator==(const iterator& other) const noexcept {
        return over == other.over && (over || now.index == other.now.index);
    }

private:
    friend class tree_view;

    // A node on the way down, as far as its parts need it.
    struct level {
        std::size_t position;
        std::uint32_t rule, entry, count;
        std::uint32_t taken; // parts already begun
    };

    struct claim {
        std::size_t entry, position;
    };

    constexpr iterator(words table, std::size_t entry, std::size_t position, words tree) noexcept
        : entries(table), list(tree) {
        over = !arrive({entry, position}, 0, 0);
    }

    // A first part stands before the list, but for rules 13 and 16.
    static constexpr bool has_first_part(std::uint32_t rule) noexcept { return rule != 13 && rule != 16; }

    static constexpr std::uint32_t parts_of(std::uint32_t rule, std::uint32_t count) noexcept {
        if (rule <= 2) return 0;
        if (rule <= 10) return rule == 7 || rule == 8 ? 2 : 1;
        return count + has_first_part(rule);
    }

    // Reads the next word as a node for an entry at a position, and puts it on the way down.
    constexpr bool arrive(claim at, std::size_t depth, std::size_t part) noexcept {
        if (index == list.size() || at.entry >= entries.size() || depth == levels.size()) return false;
        const std::uint32_t word = list[index], rule = word >> 24, number = word & 65535;
        if (rule == 0 || rule >= rules.size()) return false;
        if (entries[at.entry] >> 16 != std::uint32_t(rules[rule].kind)) return false;
        const std::uint32_t count = rule >= 11 ? number : 0;
        // A list that would begin before 0, or one that must not be empty, is in no tree.
        if (rule == 11 && count > at.position) return false;
        if ((rule == 12 || rule == 13) && count > at.position + 1) return false;
        if ((rule == 12 || rule == 15) && count == 0) return false;
        now = {};
        now.rule = rule, now.kind = rules[rule].kind, now.verdict = rules[rule].verdict;
        now.entry = at.entry, now.position = at.position;
        now.atom = word >> 16 & 255, now.count = count;
        now.parts = parts_of(rule, count), now.depth = depth, now.part = part, now.index = index++;
        levels[depth] = {at.position, rule, std::uint32_t(at.entry), count, 0};
        return true;
    }

    // What a part of a node is about.
    constexpr claim part_of(const level& l, std::uint32_t part) const noexcept {
        const std::size_t left = entries[l.entry] >> 8 & 255, right = entries[l.entry] & 255;
        const std::size_t i = l.position, n = l.count;
        const std::size_t member = has_first_part(l.rule) ? part - 1 : part; // of the list
        const bool first = has_first_part(l.rule) && part == 0;
        switch (l.rule) {
        case 6: case 10: return {right, i};
        case 7: case 8: return {part == 0 ? left : right, i};
        case 11: return first ? claim{right, i - n} : claim{left, i - n + 1 + member};
        case 12: return first ? claim{left, i + 1 - n} : claim{right, i + 1 - n + member};
        case 13: return {right, member};
        case 14: return first ? claim{right, i + n} : claim{left, i + member};
        case 15: return first ? claim{left, i + n - 1} : claim{right, i + member};
        case 16: return {right, i + member};
        default: return {left, i};
        }
    }

    constexpr void next() noexcept {
        if (over) return;
        std::size_t depth = now.depth + 1; // of the node to come
        const auto done = [](const level& l) { return l.taken == parts_of(l.rule, l.count); };
        while (depth > 0 && done(levels[depth - 1])) --depth;
        if (depth == 0) {
            over = true, ended = index == list.size();
            return;
        }
        level& above = levels[depth - 1];
        const std::uint32_t part = above.taken++;
        over = !arrive(part_of(above, part), depth, part);
    }

    words entries{}, list{};
    std::size_t index = 0; // of the word to come
    node now{};
    std::array<level, max_entries> levels{};
    bool over = true;   // there is no node to point at
    bool ended = false; // every node had its parts, and the words are at their end
};

constexpr tree_view::iterator tree_view::begin() const noexcept {
    return iterator(asked.table, asked.entry, asked.position, list);
}

constexpr bool (tree_view::whole)() const noexcept {
    iterator k = begin();
    while (k != end()) ++k;
    return (k.whole)();
}

} // namespace chickvessel

#endif // C++20
#endif
