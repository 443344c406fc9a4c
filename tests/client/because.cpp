// The sixteen rules in words, and the atoms of the samples' village.
#include "because.hpp"

namespace client {

namespace {

constexpr const char* ATOMS[] = {"at home", "at the oven", "on the road", "at the stall", "awake",
                                 "the stall is open", "at the gate", "at the tower", "the bell rings",
                                 "the lamp is lit"};
constexpr const char* KINDS[] = {"", "not", "or", "and", "since", "until"};

// ", and its left side at 3" or ", and its left side from 3 to 5"; nothing for an empty list.
void list(const char* side, std::size_t first, std::size_t count, std::FILE* to) {
    if (count == 1) std::fprintf(to, ", and its %s side at %zu", side, first);
    if (count > 1) std::fprintf(to, ", and its %s side from %zu to %zu", side, first, first + count - 1);
}

void atom(std::size_t number, std::FILE* to) {
    if (number < std::size(ATOMS)) std::fputs(ATOMS[number], to);
    else std::fprintf(to, "atom %zu", number);
}

} // namespace

void because(const chickvessel::node& n, std::FILE* to) {
    const std::size_t i = n.position, count = n.count;
    const std::string_view verdict = chickvessel::name(n.verdict);
    std::fprintf(to, "%.*s at %zu: ", int(verdict.size()), verdict.data(), i);
    if (n.kind == chickvessel::kind::atom) return atom(n.atom, to);
    std::fprintf(to, "%s, because ", KINDS[std::size_t(n.kind)]);
    switch (n.rule) {
    case 3: std::fputs("its part is violated", to); break;
    case 4: std::fputs("its part holds", to); break;
    case 5: std::fputs("its left side holds", to); break;
    case 6: std::fputs("its right side holds", to); break;
    case 7: std::fputs("both sides are violated", to); break;
    case 8: std::fputs("both sides hold", to); break;
    case 9: std::fputs("its left side is violated", to); break;
    case 10: std::fputs("its right side is violated", to); break;
    case 11:
        std::fprintf(to, "at half-hour %zu its right side holds", i - count);
        list("left", i - count + 1, count, to);
        break;
    case 12:
        std::fprintf(to, "at half-hour %zu its left side is violated", i + 1 - count);
        list("right", i + 1 - count, count, to);
        break;
    case 13: std::fprintf(to, "its right side is violated from half-hour 0 to %zu", i); break;
    case 14:
        std::fprintf(to, "at half-hour %zu its right side holds", i + count);
        list("left", i, count, to);
        break;
    case 15:
        std::fprintf(to, "at half-hour %zu its left side is violated", i + count - 1);
        list("right", i, count, to);
        break;
    case 16:
        std::fprintf(to, "its right side is violated from half-hour %zu to %zu, and so for ever", i,
                     i + count - 1);
        break;
    }
}

} // namespace client
