// Numbers at and past their bounds, and texts of many letters, entries and bytes.
#include "traps.hpp"

#include <algorithm>

namespace text {

namespace {

using second::random_source;

constexpr std::size_t MAX_BYTES = 8192;

trapped well_formed(const lines& all) { return {joined(all), 0, 0}; }

trapped refused_at(const lines& all, std::size_t index) { return {joined(all), 13, index + 1}; }

// Puts a number in the place of some number of a line.
void put(std::string& line, random_source& r, const std::string& number) {
    std::vector<std::size_t> starts;
    for (std::size_t at = 0; at < line.size(); ++at)
        if (line[at] == '=' || line[at] == ',') starts.push_back(at + 1);
    const std::size_t from = r.pick(starts);
    line.replace(from, std::min(line.find(',', from), line.size()) - from, number);
}

std::size_t some_letters(random_source& r) { return r.below(2); }
std::size_t some_entry(const lines& all, random_source& r) { return r.between(2, all.size() - 2); }

trapped number_in(lines all, std::size_t k, random_source& r, const std::string& number, bool fits) {
    put(all[k], r, number);
    return fits ? well_formed(all) : refused_at(all, k);
}

// A number that is too large, drawn once the line is.
trapped too_large_in(const lines& all, std::size_t k, random_source& r,
                     std::string (*number)(random_source&)) {
    return number_in(all, k, r, number(r), false);
}

// 2^32 or 2^64 and a little: small numbers for a reader who wraps.
std::string past_32(random_source& r) { return std::to_string(4294967296 + r.below(6)); }
std::string past_64(random_source& r) { return "1844674407370955161" + std::to_string(6 + r.below(6) % 4); }

std::string thirty_digits(random_source& r) {
    std::string digits(1, char('1' + r.below(9)));
    while (digits.size() < 30) digits += char('0' + r.below(10));
    return digits;
}

// Puts one-digit letters in front of a list until the text has so many bytes.
lines filled(lines all, std::size_t k, std::size_t bytes, random_source& r) {
    all.resize(3), all[2] = "entry=0,0,0", all.push_back("ask=0,0");
    std::size_t missing = bytes - joined(all).size();
    std::string letters;
    if (missing % 2 == 1) letters = "10,", missing -= 3;
    for (; missing > 0; missing -= 2) letters += std::string(1, char('0' + r.below(10))) + ",";
    all[k].insert(all[k].find('=') + 1, letters);
    return all;
}

trapped many_letters(const lines& all, random_source& r) {
    const std::size_t k = some_letters(r);
    return {joined(filled(all, k, r.between(8050, 8150), r)), 2, 0};
}

trapped many_letters_wrong_ask(const lines& all, random_source& r) {
    const std::size_t k = some_letters(r);
    lines many = filled(all, k, r.between(8050, 8150), r);
    many[3] += ",0";
    return refused_at(many, 3);
}

trapped full_but_unended(const lines& all, random_source& r) {
    std::string text = joined(filled(all, 0, MAX_BYTES + 1, r));
    text.pop_back();
    return {text, 13, 4};
}

trapped forty_nine_letters(lines all, bool ask_wrong) {
    all[0] = "prefix=0";
    for (int k = 1; k < 48; ++k) all[0] += ",0";
    all[1] = "loop=1";
    if (ask_wrong) all.back() += " ";
    return {joined(all), ask_wrong ? 13u : 2u, ask_wrong ? all.size() : 0};
}

lines many_entries(std::size_t count) {
    lines all = {"prefix=", "loop=1"};
    all.insert(all.end(), count, "entry=0,0,0");
    all.push_back("ask=0,0");
    return all;
}

trapped most_entries(const std::string& last, bool ask) {
    lines all = many_entries(680);
    all[681] = last;
    if (!ask) all.pop_back();
    if (last != "entry=0,0,0") return refused_at(all, 681);
    return {joined(all), ask ? 3u : 13u, ask ? 0 : 683u};
}

std::string bytes_of(std::size_t count, random_source& r, bool newlines) {
    std::string s;
    while (s.size() < count) s += newlines && r.one_in(10) ? '\n' : char('a' + r.below(26));
    return s;
}

trapped with_entry(lines all, const std::string& entry) {
    all[2] = entry;
    return {joined(all), 4, 0};
}

trapped without_entries(lines all, bool loop) {
    all.erase(all.begin() + 2, all.end() - 1);
    if (!loop) all[1] = "loop=";
    return {joined(all), loop ? 3u : 1u, 0};
}

} // namespace

std::vector<trap> limit_traps() {
    using L = lines;
    using R = random_source;
    return {
        {"letter 4294967295",
         [](L a, R& r) { return number_in(a, some_letters(r), r, "4294967295", true); }},
        {"letter 4294967296",
         [](L a, R& r) { return number_in(a, some_letters(r), r, "4294967296", false); }},
        {"letter of ten nines",
         [](L a, R& r) { return number_in(a, some_letters(r), r, "9999999999", false); }},
        {"letter past 2^32", [](L a, R& r) { return too_large_in(a, some_letters(r), r, past_32); }},
        {"letter past 2^64", [](L a, R& r) { return too_large_in(a, some_letters(r), r, past_64); }},
        {"letter of thirty digits",
         [](L a, R& r) { return too_large_in(a, some_letters(r), r, thirty_digits); }},
        {"field 255", [](L a, R& r) { return number_in(a, some_entry(a, r), r, "255", true); }},
        {"field 256", [](L a, R& r) { return number_in(a, some_entry(a, r), r, "256", false); }},
        {"field past 2^32", [](L a, R& r) { return too_large_in(a, some_entry(a, r), r, past_32); }},
        {"field past 2^64", [](L a, R& r) { return too_large_in(a, some_entry(a, r), r, past_64); }},
        {"field of thirty digits",
         [](L a, R& r) { return too_large_in(a, some_entry(a, r), r, thirty_digits); }},
        {"ask 65535", [](L a, R& r) { return number_in(a, a.size() - 1, r, "65535", true); }},
        {"ask 65536", [](L a, R& r) { return number_in(a, a.size() - 1, r, "65536", false); }},
        {"ask past 2^32", [](L a, R& r) { return too_large_in(a, a.size() - 1, r, past_32); }},
        {"ask past 2^64", [](L a, R& r) { return too_large_in(a, a.size() - 1, r, past_64); }},
        {"ask of thirty digits", [](L a, R& r) { return too_large_in(a, a.size() - 1, r, thirty_digits); }},
        {"empty prefix", [](L a, R&) { a[0] = "prefix="; return well_formed(a); }},
        {"empty loop", [](L a, R&) { a[1] = "loop="; return trapped{joined(a), 1, 0}; }},
        {"no entry", [](L a, R&) { return without_entries(a, true); }},
        {"no entry, empty loop", [](L a, R&) { return without_entries(a, false); }},
        {"kind past 5",
         [](L a, R& r) { return with_entry(a, "entry=" + std::to_string(r.between(6, 255)) + ",0,0"); }},
        {"atom 32", [](L a, R&) { return with_entry(a, "entry=0,32,0"); }},
        {"49 letters", [](L a, R&) { return forty_nine_letters(a, false); }},
        {"49 letters, ask wrong", [](L a, R&) { return forty_nine_letters(a, true); }},
        {"4,000 letters", [](L a, R& r) { return many_letters(a, r); }},
        {"4,000 letters, ask wrong", [](L a, R& r) { return many_letters_wrong_ask(a, r); }},
        {"32 entries", [](L, R&) { return well_formed(many_entries(32)); }},
        {"33 entries", [](L, R&) { return trapped{joined(many_entries(33)), 3, 0}; }},
        {"680 entries", [](L, R&) { return most_entries("entry=0,0,0", true); }},
        {"680 entries, the last wrong", [](L, R&) { return most_entries("entry=0,0", true); }},
        {"680 entries, no ask", [](L, R&) { return most_entries("entry=0,0,0", false); }},
        {"8,192 bytes, letters",
         [](L a, R& r) { return trapped{joined(filled(a, some_letters(r), MAX_BYTES, r)), 2, 0}; }},
        {"8,193 bytes, letters",
         [](L a, R& r) { return trapped{joined(filled(a, some_letters(r), MAX_BYTES + 1, r)), 14, 0}; }},
        {"8,192 bytes, no last newline", [](L a, R& r) { return full_but_unended(a, r); }},
        {"8,192 bytes and a newline",
         [](L a, R& r) { return trapped{joined(filled(a, 0, MAX_BYTES, r)) + "\n", 14, 0}; }},
        {"8,192 other bytes", [](L, R& r) { return trapped{bytes_of(MAX_BYTES, r, true), 13, 1}; }},
        {"8,193 other bytes",
         [](L, R& r) { return trapped{bytes_of(MAX_BYTES + 1, r, r.one_in(2)), 14, 0}; }},
        {"far more bytes", [](L, R& r) { return trapped{bytes_of(r.between(8194, 70000), r, true), 14, 0}; }},
        {"a sound text and far more",
         [](L a, R& r) { return trapped{joined(a) + bytes_of(r.between(8194, 20000), r, true), 14, 0}; }},
    };
}

std::string joined(const lines& all) {
    std::string text;
    for (const std::string& line : all) text += line + "\n";
    return text;
}

std::vector<trap> all_traps() {
    std::vector<trap> all = line_traps();
    for (const trap& t : limit_traps()) all.push_back(t);
    return all;
}

} // namespace text
