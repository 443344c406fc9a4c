// Reading and printing the lines of case files.
#include "cases.hpp"

#include <algorithm>
#include <charconv>
#include <fstream>
#include <map>
#include <stdexcept>

namespace second {

namespace {

const char* const NAMES[] = {"truth", "find", "write", "check", "view", "explain"};

[[noreturn]] void wrong(const std::string& what) { throw std::runtime_error("cannot read " + what); }

std::string_view trimmed(std::string_view s) {
    while (!s.empty() && s.front() == ' ') s.remove_prefix(1);
    while (!s.empty() && s.back() == ' ') s.remove_suffix(1);
    return s;
}

std::vector<std::string_view> split(std::string_view s, char separator) {
    std::vector<std::string_view> pieces;
    for (;;) {
        const std::size_t at = s.find(separator);
        pieces.push_back(s.substr(0, at));
        if (at == s.npos) return pieces;
        s.remove_prefix(at + 1);
    }
}

std::vector<std::string_view> tokens(std::string_view s) {
    std::vector<std::string_view> found;
    for (std::string_view piece : split(s, ' '))
        if (!piece.empty()) found.push_back(piece);
    return found;
}

std::uint64_t number(std::string_view s) {
    std::uint64_t value = 0;
    const auto [end, error] = std::from_chars(s.data(), s.data() + s.size(), value);
    if (s.empty() || error != std::errc() || end != s.data() + s.size())
        wrong("the number '" + std::string(s) + "'");
    return value;
}

// Takes a count off the end of "x*count"; 1 if there is none.
std::uint64_t repetition(std::string_view& s) {
    const std::size_t star = s.rfind('*');
    if (star == s.npos) return 1;
    const std::uint64_t count = number(s.substr(star + 1));
    s = s.substr(0, star);
    return count;
}

std::uint32_t three(std::string_view s, std::uint64_t first_unit, std::uint64_t second_unit) {
    const auto fields = split(s, ',');
    if (fields.size() != 3) wrong("the word '" + std::string(s) + "'");
    const std::uint64_t a = number(fields[0]), b = number(fields[1]), c = number(fields[2]);
    if (c >= second_unit || b >= first_unit / second_unit || a > UINT32_MAX / first_unit)
        wrong("the fields of '" + std::string(s) + "'");
    return std::uint32_t(a * first_unit + b * second_unit + c);
}

std::vector<std::uint32_t> letters(std::string_view s) {
    std::vector<std::uint32_t> list;
    if (s.empty()) return list;
    for (std::string_view piece : split(s, ',')) {
        const std::uint64_t count = repetition(piece), letter = number(piece);
        if (letter > UINT32_MAX) wrong("the letter '" + std::string(piece) + "'");
        list.insert(list.end(), count, std::uint32_t(letter));
    }
    return list;
}

std::vector<std::uint32_t> entries(std::string_view s) {
    std::vector<std::uint32_t> list;
    if (s.empty()) return list;
    for (std::string_view piece : split(s, '/')) {
        const std::uint64_t count = repetition(piece);
        list.insert(list.end(), count, three(piece, 65536, 256));
    }
    return list;
}

std::vector<std::uint32_t> tree_words(std::string_view s) {
    std::vector<std::uint32_t> list;
    if (s == "-") return list;
    for (std::string_view piece : tokens(s)) {
        const std::uint64_t count = repetition(piece);
        const std::size_t dots = piece.find("..");
        const std::uint32_t from = three(piece.substr(0, dots), 16777216, 65536);
        const std::uint64_t last = dots == piece.npos ? from % 65536 : number(piece.substr(dots + 2));
        if (last > 65535) wrong("the last number of '" + std::string(piece) + "'");
        for (std::uint64_t k = 0; k < count; ++k)
            for (std::uint32_t word = from; word % 65536 <= last; ++word) {
                list.push_back(word);
                if (word % 65536 == last) break;
            }
    }
    if (list.empty()) wrong("the words '" + std::string(s) + "'");
    return list;
}

struct lists {
    std::vector<std::uint32_t> prefix, loop, table;
};

lists lists_of(std::string_view s) {
    const auto parts = split(s, ';');
    if (parts.size() != 3) wrong("the schedule '" + std::string(s) + "'");
    return {letters(parts[0]), letters(parts[1]), entries(parts[2])};
}

// The byte that a backslash and what follows it stand for; moves past it.
char escaped(std::string_view s, std::size_t& k) {
    const std::string hex(s.substr(std::min(k + 1, s.size()), 2));
    switch (s[k]) {
    case 'n': return '\n';
    case 'r': return '\r';
    case 't': return '\t';
    case 'x':
        if (hex.size() != 2 || hex.find_first_not_of("0123456789abcdef") != hex.npos)
            wrong("the byte \\x" + hex);
        k += 2;
        return char(std::stoul(hex, nullptr, 16));
    default: return s[k];
    }
}

// The bytes of "pieces" in quotes.
std::string bytes_of(std::string_view s) {
    std::string bytes;
    for (s = trimmed(s); !s.empty(); s = trimmed(s)) {
        std::string piece;
        std::size_t k = 1;
        for (; k < s.size() && s[k] != '"'; ++k) {
            if (s[k] == '\\' && k + 1 < s.size()) piece += escaped(s, ++k);
            else piece += s[k];
        }
        if (s[0] != '"' || k >= s.size()) wrong("the text at " + std::string(s.substr(0, 20)));
        const std::size_t end = std::min(s.find(' ', k), s.size());
        std::string_view tail = s.substr(k + 1, end - k - 1);
        std::uint64_t count = repetition(tail);
        if (!tail.empty()) wrong("what follows a text: " + std::string(tail));
        while (count-- > 0) bytes += piece;
        s.remove_prefix(end);
    }
    return bytes;
}

std::string quoted(const std::string& bytes) {
    static const char DIGITS[] = "0123456789abcdef";
    std::string s = "\"";
    for (unsigned char c : bytes) {
        if (c == '\n') s += "\\n";
        else if (c == '"' || c == '\\') s += {'\\', char(c)};
        else if (c < ' ' || c > '~' || c == '|') s += {'\\', 'x', DIGITS[c / 16], DIGITS[c % 16]};
        else s += char(c);
    }
    return s + "\"";
}

std::string joined(const std::vector<std::uint32_t>& list, const char* separator,
                   std::string (*print)(std::uint32_t)) {
    std::string s;
    for (std::uint32_t x : list) s += (s.empty() ? "" : separator) + print(x);
    return s;
}

std::string letter_text(std::uint32_t letter) { return std::to_string(letter); }

std::string entry_text(std::uint32_t word) {
    const entry_fields e = entry_of(word);
    return std::to_string(e.kind) + "," + std::to_string(e.left) + "," + std::to_string(e.right);
}

std::string node_text(std::uint32_t word) {
    const node_fields n = node_of(word);
    return std::to_string(n.rule) + "," + std::to_string(n.atom) + "," + std::to_string(n.number);
}

std::string words_text(const std::vector<std::uint32_t>& tree) {
    return tree.empty() ? "-" : joined(tree, " ", node_text);
}

using names = std::map<std::string, lists, std::less<>>;

// The question of a call on lists: schedule, entry, position; the view has no entry.
void read_question(test_case& c, std::string_view field, const names& named) {
    const auto question = tokens(field);
    if (question.size() != (c.what == call::view ? 2 : 3)) wrong("the question '" + std::string(field) + "'");
    const std::string_view schedule = question[0];
    lists l;
    if (schedule.find(';') != schedule.npos) {
        l = lists_of(schedule);
    } else {
        if (!named.contains(schedule)) wrong("the schedule '" + std::string(schedule) + "'");
        l = named.find(schedule)->second;
        c.schedule = schedule;
    }
    c.prefix = l.prefix, c.loop = l.loop, c.table = l.table;
    c.position = number(question.back());
    if (c.what != call::view) c.entry = number(question[1]);
}

void read_part(test_case& c, std::string_view field) {
    const auto part = tokens(field);
    if (part.size() != 3 || (part[0] != "prefix" && part[0] != "loop"))
        wrong("the part '" + std::string(field) + "'");
    c.of_loop = part[0] == "loop", c.first = number(part[1]), c.count = number(part[2]);
    if (c.first + c.count > (c.of_loop ? c.loop : c.prefix).size()) wrong("a part past the end of its list");
}

void read_answer(test_case& c, std::string_view field) {
    const auto numbers = tokens(field);
    if (numbers.size() != 4) wrong("the answer '" + std::string(field) + "'");
    std::uint32_t* const fields[] = {&c.expected.number, &c.expected.place, &c.expected.verdict,
                                     &c.expected.size};
    for (std::size_t k = 0; k < 4; ++k) *fields[k] = std::uint32_t(number(numbers[k]));
}

void read_lengths(test_case& c, std::string_view field) {
    const auto lengths = tokens(field);
    if (lengths.size() != (c.what == call::write ? 2 : 1)) wrong("the lengths '" + std::string(field) + "'");
    c.work = number(lengths[0]);
    if (c.what == call::write) c.room = number(lengths[1]);
}

test_case case_of_fields(const std::vector<std::string_view>& fields, const names& named) {
    test_case c;
    const auto known = std::find(std::begin(NAMES), std::end(NAMES), fields[0]);
    if (known == std::end(NAMES)) wrong("the call '" + std::string(fields[0]) + "'");
    c.what = call(known - std::begin(NAMES));
    c.why = fields[5];
    if (c.what == call::explain) {
        c.text = bytes_of(fields[2]), c.output = bytes_of(fields[4]);
        return c;
    }
    read_question(c, fields[1], named);
    if (c.what == call::view) {
        read_part(c, fields[3]);
        return c;
    }
    read_answer(c, fields[3]);
    if (c.what == call::check) c.tree = tree_words(fields[2]);
    else read_lengths(c, fields[2]);
    if (c.what == call::write && fields[4] != "as found") c.written = tree_words(fields[4]);
    if (c.what == call::write && c.written.size() != c.expected.size)
        wrong("a size that is not the number of its words");
    return c;
}

std::vector<std::string_view> fields_of(std::string_view line) {
    std::vector<std::string_view> fields = split(line, '|');
    if (fields.size() != 6) wrong("a line of " + std::to_string(fields.size()) + " fields");
    for (std::string_view& field : fields) field = trimmed(field);
    return fields;
}

} // namespace

std::string name_of(call what) { return NAMES[int(what)]; }

std::string text_of(const answer& a) {
    return std::to_string(a.number) + " " + std::to_string(a.place) + " " + std::to_string(a.verdict) + " " +
           std::to_string(a.size);
}

test_case case_of(const std::string& line) { return case_of_fields(fields_of(line), {}); }

std::vector<test_case> read_cases(const std::filesystem::path& file) {
    std::ifstream in(file);
    if (!in) wrong(file.string());
    std::vector<test_case> cases;
    names named;
    std::string line;
    for (std::size_t k = 1; std::getline(in, line); ++k) {
        if (trimmed(line).empty() || line[0] == '#') continue;
        const std::string where = file.filename().string() + ":" + std::to_string(k);
        try {
            const auto fields = fields_of(line);
            if (fields[0] == "schedule") {
                if (!named.emplace(fields[1], lists_of(fields[2])).second)
                    wrong("a second schedule '" + std::string(fields[1]) + "'");
            } else {
                cases.push_back(case_of_fields(fields, named));
                cases.back().where = where;
            }
        } catch (const std::exception& e) {
            throw std::runtime_error(where + ": " + e.what());
        }
    }
    return cases;
}

std::string line_of(const test_case& c) {
    const std::string bar = " | ";
    if (c.what == call::explain)
        return "explain | | " + quoted(c.text) + " | | " + quoted(c.output) + bar + c.why;
    std::string s = name_of(c.what) + bar;
    s += c.schedule.empty() ? joined(c.prefix, ",", letter_text) + ";" + joined(c.loop, ",", letter_text) +
                                  ";" + joined(c.table, "/", entry_text)
                            : c.schedule;
    if (c.what == call::view)
        return s + " " + std::to_string(c.position) + " | | " + (c.of_loop ? "loop " : "prefix ") +
               std::to_string(c.first) + " " + std::to_string(c.count) + " | | " + c.why;
    s += " " + std::to_string(c.entry) + " " + std::to_string(c.position) + bar;
    s += c.what == call::check ? words_text(c.tree) : std::to_string(c.work);
    if (c.what == call::write) s += " " + std::to_string(c.room);
    s += bar + text_of(c.expected) + bar;
    if (c.what == call::write) s += c.written.empty() ? "as found" : words_text(c.written);
    return s + bar + c.why;
}

} // namespace second
