// The headers read where function-like macros have the names of their functions, as some game engines have
// it: no macro may expand in them, and every function can be called with its name in parentheses. The macro
// check stands before everything; the standard's own headers use some of the other names, so these come
// after them. ./run compiles this alone; it is not called.
#define check(...) this_is_the_macro_check

#include <array>
#include <cstddef>
#include <cstdint>
#include <iterator>
#include <span>
#include <string_view>

#define truth(...) this_is_the_macro_truth
#define find(...) this_is_the_macro_find
#define write(...) this_is_the_macro_write
#define name(...) this_is_the_macro_name
#define entry_word(...) this_is_the_macro_entry_word
#define atom(...) this_is_the_macro_atom
#define not_(...) this_is_the_macro_not_
#define or_(...) this_is_the_macro_or_
#define and_(...) this_is_the_macro_and_
#define since(...) this_is_the_macro_since
#define until(...) this_is_the_macro_until
#define answer_of(...) this_is_the_macro_answer_of
#define whole(...) this_is_the_macro_whole
#define read_text(...) this_is_the_macro_read_text
#define explain(...) this_is_the_macro_explain
#define question(...) this_is_the_macro_question
#define refusal(...) this_is_the_macro_refusal
#define verdict(...) this_is_the_macro_verdict
#define kind(...) this_is_the_macro_kind

#include "chickvessel_text.hpp"

namespace kit {

std::size_t with_macros(std::string_view text, chickvessel::text_lists& lists, chickvessel::work_slice& work,
                        chickvessel::tree_room& room, chickvessel::output_room& out) noexcept {
    constexpr std::uint32_t table[] = {
        (chickvessel::atom)(0), (chickvessel::not_)(0), (chickvessel::or_)(0, 1), (chickvessel::and_)(0, 1),
        (chickvessel::since)(0, 1), (chickvessel::until)(0, 1),
        (chickvessel::entry_word)(chickvessel::kind::atom, 1, 0)};
    if (const chickvessel::reading r = (chickvessel::read_text)(text, lists); !r) return (r.name)().size();
    chickvessel::question q = (lists.question)();
    q.table = table;
    chickvessel::answer a = (chickvessel::truth)(q, work);
    if (a) a = (chickvessel::find)(q, work);
    if (a) a = (chickvessel::write)(q, work, room);
    const chickvessel::words tree = chickvessel::words(room).first(a.size);
    if (a) a = (chickvessel::check)(q, tree);
    const bool all = (chickvessel::tree_view(q, tree).whole)();
    return (chickvessel::name)(a.verdict).size() + (a.name)().size() + all +
           (chickvessel::explain)(text, work, room, out).size();
}

} // namespace kit
