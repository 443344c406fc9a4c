// chickvessel_text.hpp: the calls of chickvessel_text.h for C++20: a text read into lists, or answered as a
// text. That header says what a text is, when it is refused, and what each call leaves in the buffers that it
// is lent; all of that holds here unchanged. As chickvessel.hpp does, it throws nothing and allocates
// nothing, and its functions can be called in parentheses where a macro has their name.
//
//     static chickvessel::text_lists lists; // lent, kept by the caller: 1 KiB
//     if (const chickvessel::reading r = chickvessel::read_text(text, lists))
//         ask(lists.question());
//     else
//         complain(r.name(), r.line);
#ifndef CHICKVESSEL_TEXT_HPP
#define CHICKVESSEL_TEXT_HPP

#include "chickvessel.hpp"

#if (defined(_MSVC_LANG) ? _MSVC_LANG : __cplusplus) > 201703L // else chickvessel.hpp has said so

#include "chickvessel_text.h"

namespace chickvessel {

inline constexpr std::size_t max_text = CHICKVESSEL_MAX_TEXT, max_output = CHICKVESSEL_MAX_OUTPUT;

// The lists of a text and what it asks. A list that is longer than there is room for is cut; every call
// refuses it all the same, since the room is one more than is allowed.
struct text_lists {
    std::array<std::uint32_t, CHICKVESSEL_READ_LETTERS> prefix{}, loop{};
    std::array<std::uint32_t, CHICKVESSEL_READ_ENTRIES> table{};
    std::size_t prefix_length = 0, loop_length = 0, table_length = 0;
    std::size_t entry = 0, position = 0;

    // As a question, for the calls. It points into these lists, which must outlive it.
    [[nodiscard]] constexpr auto (question)() const noexcept -> chickvessel::question {
        return {.prefix = letters(prefix).first(prefix_length),
                .loop = letters(loop).first(loop_length),
                .table = words(table).first(table_length),
                .entry = entry,
                .position = position};
    }
};

// Whether a text was read: wrong_line with its line, or text_too_long, or no refusal. True if it was.
struct [[nodiscard]] reading {
    refusal refused = refusal::none;
    std::size_t line = 0; // of wrong_line, from 1; else 0

    constexpr explicit operator bool() const noexcept { return refused == refusal::none; }
    constexpr std::string_view (name)() const noexcept { return (chickvessel::name)(refused); }
    constexpr bool operator==(const reading&) const noexcept = default;
};

// The lists and the question of a text, into lists; a refusal leaves them as found.
[[nodiscard]] inline reading (read_text)(std::string_view text, text_lists& into) noexcept {
    const chickvessel_reading r =
        chickvessel_read_text(reinterpret_cast<const std::uint8_t*>(text.data()), text.size(),
                              into.prefix.data(), into.loop.data(), into.table.data());
    if (r.number != 0) return {refusal{r.number}, r.line};
    into.prefix_length = r.prefix_len, into.loop_length = r.loop_len, into.table_length = r.table_len;
    into.entry = r.entry, into.position = r.position;
    return {};
}

using output_room = std::array<char, max_output>;

// The answer to a text, as the program explain prints it: the front of out, which no 0 ends. work, tree and
// out must not overlap each other, nor the text.
[[nodiscard]] inline std::string_view (explain)(std::string_view text,
                                                std::span<std::uint16_t, min_work> work,
                                                std::span<std::uint32_t, max_tree> tree,
                                                std::span<char, max_output> out) noexcept {
    const std::size_t size =
        chickvessel_explain(reinterpret_cast<const std::uint8_t*>(text.data()), text.size(), work.data(),
                            tree.data(), reinterpret_cast<std::uint8_t*>(out.data()));
    return {out.data(), size};
}

} // namespace chickvessel

#endif // C++20
#endif
