// Texts for the text program, and random damage to them.
#include "shapes.hpp"

#include <algorithm>

namespace second {

namespace {

std::string list_text(const std::vector<std::uint32_t>& list) {
    std::string s;
    for (std::uint32_t letter : list) s += (s.empty() ? "" : ",") + std::to_string(letter);
    return s;
}

// The places where a number begins, and where lines begin.
std::vector<std::size_t> starts(const std::string& text, bool lines) {
    std::vector<std::size_t> found;
    for (std::size_t k = 0; k < text.size(); ++k) {
        const char before = k == 0 ? '\n' : text[k - 1];
        if (lines ? before == '\n' : (before == ',' || before == '=')) found.push_back(k);
    }
    return found;
}

std::size_t line_end(const std::string& text, std::size_t from) {
    return std::min(text.find('\n', from), text.size() - 1) + 1;
}

} // namespace

std::string text_of_question(const test_case& c) {
    std::string s = "prefix=" + list_text(c.prefix) + "\nloop=" + list_text(c.loop) + "\n";
    for (std::uint32_t word : c.table) {
        const entry_fields e = entry_of(word);
        s += "entry=" + std::to_string(e.kind) + "," + std::to_string(e.left) + "," +
             std::to_string(e.right) + "\n";
    }
    return s + "ask=" + std::to_string(c.entry) + "," + std::to_string(c.position) + "\n";
}

void damage_text(std::string& text, random_source& r) {
    static const std::string BYTES("0123456789,=\n\r\t +-.xAE\0\x80", 24);
    static const std::vector<std::string> NUMBERS = {
        "",           "0",          "00",                   "01",  "255", "256", "65535", "65536",
        "4294967295", "4294967296", "18446744073709551616", "99999999999999999999999999999999"};
    if (text.empty()) return;
    const std::size_t at = r.below(text.size());
    const std::vector<std::size_t> numbers = starts(text, false), lines = starts(text, true);
    const std::size_t line = r.pick(lines), end = line_end(text, line);
    switch (r.below(11)) {
    case 0: text[at] = BYTES[r.below(BYTES.size())]; break;
    case 1: text.erase(at, 1); break;
    case 2: text.insert(at, 1, BYTES[r.below(BYTES.size())]); break;
    case 3: text.resize(at); break;
    case 4: text.pop_back(); break;
    case 5: text += r.one_in(2) ? "\n" : text.substr(line, end - line); break;
    case 6: text.erase(line, end - line); break;
    case 7: text.insert(line, text.substr(line, end - line)); break;
    case 8: {
        const std::string moved = text.substr(line, end - line);
        text.erase(line, end - line);
        text.insert(text.empty() ? 0 : r.pick(starts(text, true)), moved);
        break;
    }
    case 9:
        if (!numbers.empty()) {
            const std::size_t from = r.pick(numbers);
            const std::size_t end = std::min(text.find_first_of(",\n", from), text.size());
            text.replace(from, end - from, r.pick(NUMBERS));
        }
        break;
    case 10: // letters put before those of the first line, until the whole has 8,190 to 8,194 bytes
        if (const std::size_t missing = r.between(8190, 8194) - std::min<std::size_t>(text.size(), 8190);
            missing > 2) {
            std::string letters = missing % 2 == 0 ? "" : "10,";
            while (letters.size() < missing) letters += "0,";
            text.insert(std::min(text.find('='), text.size() - 1) + 1, letters);
        }
        break;
    }
}

} // namespace second
