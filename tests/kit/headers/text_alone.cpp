// Everything that chickvessel_text.hpp offers, used once. ./run compiles this as it does header_alone.cpp,
// and looks at what it needs: the two calls of texts alone.
#include "chickvessel_text.hpp"

namespace {

using namespace chickvessel;

static_assert(max_text == 8192 && max_output == 4095 * 19 + 40);

// The room for each list is one more than a question may have, so what is cut is still refused.
static_assert(text_lists{}.prefix.size() == max_letters + 1 && text_lists{}.loop.size() == max_letters + 1);
static_assert(text_lists{}.table.size() == max_entries + 1);

constexpr text_lists LISTS{.prefix = {1}, .loop = {4, 2}, .table = {atom(1)}, .prefix_length = 1,
                           .loop_length = 2, .table_length = 1, .entry = 3, .position = 4};
constexpr question ASKED = LISTS.question();
static_assert(ASKED.prefix.size() == 1 && ASKED.loop.size() == 2 && ASKED.table.size() == 1);
static_assert(ASKED.loop[1] == 2 && ASKED.table[0] == 0x000100 && ASKED.entry == 3 && ASKED.position == 4);

static_assert(reading{} && !reading{refusal::wrong_line, 3});
static_assert(reading{refusal::wrong_line, 3}.name() == "a line of the text is wrong");
static_assert(reading{refusal::wrong_line, 3} != reading{refusal::wrong_line, 4});

} // namespace

// Not called: it is here to be compiled.
std::size_t everything(std::string_view text, text_lists& lists, work_slice& work, tree_room& room,
                       output_room& out) noexcept {
    static_assert(noexcept(read_text(text, lists)) && noexcept(explain(text, work, room, out)));
    const reading r = read_text(text, lists);
    return r.line + r.name().size() + lists.question().entry + explain(text, work, room, out).size();
}
