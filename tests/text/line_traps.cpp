// One line wrong, one too few, one too many, two in the wrong order.
#include "traps.hpp"

#include <algorithm>

namespace text {

namespace {

using second::random_source;

// The lines as they are now, refused at the line with this index.
trapped refused_at(const lines& all, std::size_t index) { return {joined(all), 13, index + 1}; }

// Puts something at a place of some line, that makes the line wrong wherever it stands.
trapped anywhere(lines all, random_source& r, const std::string& what) {
    const std::size_t k = r.below(all.size());
    all[k].insert(r.below(all[k].size() + 1), what);
    return refused_at(all, k);
}

// Puts something right before a number of some line.
trapped before_a_number(lines all, random_source& r, const std::string& what) {
    const std::size_t k = r.below(all.size());
    std::vector<std::size_t> starts;
    for (std::size_t at = 0; at < all[k].size(); ++at)
        if (all[k][at] == '=' || all[k][at] == ',') starts.push_back(at + 1);
    all[k].insert(r.pick(starts), what);
    return refused_at(all, k);
}

trapped upper_case(lines all, random_source& r) {
    const std::size_t k = r.below(all.size()), at = r.below(all[k].find('='));
    all[k][at] = char(all[k][at] - 'a' + 'A');
    return refused_at(all, k);
}

// A comma more where no number stands beside it: a field is empty.
trapped empty_field(lines all, random_source& r) {
    const std::size_t k = r.below(all.size());
    std::vector<std::size_t> places = {all[k].find('=') + 1, all[k].size()};
    for (std::size_t at = 0; at < all[k].size(); ++at)
        if (all[k][at] == ',') places.push_back(at);
    all[k].insert(r.pick(places), ",");
    return refused_at(all, k);
}

trapped dropped(lines all, std::size_t k) {
    all.erase(all.begin() + std::ptrdiff_t(k));
    return refused_at(all, k);
}

trapped empty_line(lines all, random_source& r) {
    const std::size_t k = r.below(all.size());
    all.insert(all.begin() + std::ptrdiff_t(k), "");
    return refused_at(all, k);
}

trapped no_equals_sign(lines all, random_source& r) {
    const std::size_t k = r.below(all.size());
    all[k].erase(all[k].find('='), 1);
    return refused_at(all, k);
}

trapped instead_of_fields(lines all, std::size_t k, const std::string& what) {
    all[k].resize(all[k].find('=') + 1);
    all[k] += what;
    return refused_at(all, k);
}

trapped twice(lines all, std::size_t k) {
    all.insert(all.begin() + std::ptrdiff_t(k), all[k]);
    return refused_at(all, k + 1);
}

trapped exchanged(lines all, std::size_t k, std::size_t wrong) {
    std::swap(all[k], all[k + 1]);
    return refused_at(all, wrong);
}

// An entry or ask line with one field more or fewer.
trapped other_count(lines all, random_source& r, bool more) {
    const std::size_t k = r.between(2, all.size() - 1);
    if (more) all[k] += ",0";
    else all[k].resize(all[k].rfind(','));
    return refused_at(all, k);
}

trapped behind(const lines& all, const std::string& more) { return {joined(all) + more, 13, all.size() + 1}; }

// All before some byte: the line that is not ended is wrong, or the one that should come next is missing.
trapped cut_off(const lines& all, random_source& r) {
    const std::string whole = joined(all), left = whole.substr(0, r.below(whole.size()));
    return {left, 13, std::size_t(std::ranges::count(left, '\n')) + 1};
}

trapped two_wrong(lines all, random_source& r) {
    const std::size_t one = r.below(all.size()), two = r.below(all.size());
    all[one] += " ", all[two] += "x";
    return refused_at(all, std::min(one, two));
}

trapped no_newline_between(const lines& all, random_source& r) {
    const std::size_t k = r.below(all.size());
    std::string text;
    for (std::size_t l = 0; l < all.size(); ++l) text += all[l] + (l == k ? std::string(1, '\0') : "\n");
    return {text, 13, k + 1};
}

lines with_cr(lines all) {
    for (std::string& line : all) line += '\r';
    return all;
}

trapped cr_for_newline(const lines& all) {
    std::string text = joined(all);
    std::ranges::replace(text, '\n', '\r');
    return {text, 13, 1};
}

} // namespace

std::vector<trap> line_traps() {
    using L = lines;
    using R = random_source;
    return {
        {"nothing at all", [](L, R&) { return trapped{"", 13, 1}; }},
        {"a newline alone", [](L, R&) { return trapped{"\n", 13, 1}; }},
        {"no last newline",
         [](L a, R&) { std::string s = joined(a); s.pop_back(); return trapped{s, 13, a.size()}; }},
        {"cut off", [](L a, R& r) { return cut_off(a, r); }},
        {"no prefix line", [](L a, R&) { return dropped(a, 0); }},
        {"no loop line", [](L a, R&) { return dropped(a, 1); }},
        {"no ask line", [](L a, R&) { return dropped(a, a.size() - 1); }},
        {"prefix line alone", [](L a, R&) { return trapped{a[0] + "\n", 13, 2}; }},
        {"prefix line twice", [](L a, R&) { return twice(a, 0); }},
        {"loop line twice", [](L a, R&) { return twice(a, 1); }},
        {"ask line twice", [](L a, R&) { return twice(a, a.size() - 1); }},
        {"prefix and loop exchanged", [](L a, R&) { return exchanged(a, 0, 0); }},
        {"loop and entry exchanged", [](L a, R&) { return exchanged(a, 1, 1); }},
        {"ask before the last entry", [](L a, R&) { return exchanged(a, a.size() - 2, a.size() - 1); }},
        {"an empty line", [](L a, R& r) { return empty_line(a, r); }},
        {"newline after ask", [](L a, R&) { return behind(a, "\n"); }},
        {"byte after ask", [](L a, R& r) { return behind(a, std::string(1, char(r.below(256)))); }},
        {"space after ask", [](L a, R&) { return behind(a, " "); }},
        {"byte 0 after ask", [](L a, R&) { return behind(a, std::string(1, '\0')); }},
        {"entry after ask", [](L a, R&) { return behind(a, a[2] + "\n"); }},
        {"the whole text twice", [](L a, R&) { return behind(a, joined(a)); }},
        {"CR in a line",
         [](L a, R& r) { const std::size_t k = r.below(a.size()); a[k] += '\r'; return refused_at(a, k); }},
        {"CR in every line", [](L a, R&) { return refused_at(with_cr(a), 0); }},
        {"CR, empty prefix", [](L a, R&) { a[0] = "prefix=\r"; return refused_at(a, 0); }},
        {"CR for newline", [](L a, R&) { return cr_for_newline(a); }},
        {"byte 0 in a line", [](L a, R& r) { return anywhere(a, r, std::string(1, '\0')); }},
        {"byte 0 for a newline", [](L a, R& r) { return no_newline_between(a, r); }},
        {"tab", [](L a, R& r) { return anywhere(a, r, "\t"); }},
        {"space", [](L a, R& r) { return anywhere(a, r, " "); }},
        {"other control byte",
         [](L a, R& r) { return anywhere(a, r, std::string(1, char(r.between(11, 31)))); }},
        {"high byte", [](L a, R& r) { return anywhere(a, r, std::string(1, char(r.between(127, 255)))); }},
        {"byte order mark", [](L a, R&) { a[0] = "\xef\xbb\xbf" + a[0]; return refused_at(a, 0); }},
        {"upper case", [](L a, R& r) { return upper_case(a, r); }},
        {"plus sign", [](L a, R& r) { return before_a_number(a, r, "+"); }},
        {"minus sign", [](L a, R& r) { return before_a_number(a, r, "-"); }},
        {"leading zero", [](L a, R& r) { return before_a_number(a, r, "0"); }},
        {"thirty leading zeros", [](L a, R& r) { return before_a_number(a, r, std::string(30, '0')); }},
        {"hexadecimal", [](L a, R& r) { return before_a_number(a, r, "0x"); }},
        {"point", [](L a, R& r) { return anywhere(a, r, "."); }},
        // The bytes beside the digits.
        {"colon and slash", [](L a, R& r) { return anywhere(a, r, r.one_in(2) ? ":" : "/"); }},
        {"equals sign twice", [](L a, R& r) { return anywhere(a, r, "="); }},
        {"no equals sign", [](L a, R& r) { return no_equals_sign(a, r); }},
        {"empty field", [](L a, R& r) { return empty_field(a, r); }},
        {"comma alone", [](L a, R& r) { return instead_of_fields(a, r.below(2), ","); }},
        {"a field too many", [](L a, R& r) { return other_count(a, r, true); }},
        {"a field too few", [](L a, R& r) { return other_count(a, r, false); }},
        {"no field", [](L a, R& r) { return instead_of_fields(a, r.between(2, a.size() - 1), ""); }},
        {"two wrong lines", [](L a, R& r) { return two_wrong(a, r); }},
        {"wrong line, empty loop",
         [](L a, R&) { a[1] = "loop=", a.back() += ",1"; return refused_at(a, a.size() - 1); }},
    };
}

} // namespace text
