// The text program: reading the lines, and printing the writer's answer.
#include "reference.hpp"

#include <optional>
#include <string_view>

namespace second {

namespace {

struct question {
    std::vector<std::uint32_t> prefix, loop, table;
    std::size_t entry = 0, position = 0;
};

// A decimal number without leading zeros, up to a greatest value.
std::optional<std::uint32_t> number_of(std::string_view digits, std::uint32_t greatest) {
    if (digits.empty() || digits.size() > 10 || (digits.size() > 1 && digits[0] == '0')) return {};
    std::uint64_t value = 0;
    for (char c : digits) {
        if (c < '0' || c > '9') return {};
        value = value * 10 + std::uint64_t(c - '0');
    }
    if (value > greatest) return {};
    return std::uint32_t(value);
}

// Numbers with commas between them: at least one.
std::optional<std::vector<std::uint32_t>> numbers_of(std::string_view list, std::uint32_t greatest) {
    std::vector<std::uint32_t> numbers;
    for (;;) {
        const std::size_t comma = list.find(',');
        const auto number = number_of(list.substr(0, comma), greatest);
        if (!number) return {};
        numbers.push_back(*number);
        if (comma == list.npos) return numbers;
        list.remove_prefix(comma + 1);
    }
}

// What a line of the given name says, if it has that name.
std::optional<std::string_view> after(std::string_view name, std::optional<std::string_view> line) {
    if (!line || !line->starts_with(name)) return {};
    return line->substr(name.size());
}

class reader {
public:
    explicit reader(std::string_view text) : rest(text) {}

    std::uint32_t line_number = 0; // of the line last asked for

    // The next line, if there is one and a newline ends it.
    std::optional<std::string_view> line() {
        ++line_number;
        const std::size_t end = rest.find('\n');
        if (end == rest.npos) return {};
        const std::string_view line = rest.substr(0, end);
        rest.remove_prefix(end + 1);
        return line;
    }

    // The whole text as a question; nothing if the line last asked for is wrong or missing.
    std::optional<question> read() {
        question q;
        if (!letters(after("prefix=", line()), q.prefix)) return {};
        if (!letters(after("loop=", line()), q.loop)) return {};
        std::optional<std::string_view> last = line();
        for (; after("entry=", last); last = line()) {
            const auto fields = numbers_of(*after("entry=", last), 255);
            if (!fields || fields->size() != 3) return {};
            q.table.push_back((*fields)[0] * 65536 + (*fields)[1] * 256 + (*fields)[2]);
        }
        const auto asked = after("ask=", last);
        const auto fields = asked ? numbers_of(*asked, 65535) : std::nullopt;
        if (!fields || fields->size() != 2) return {};
        q.entry = (*fields)[0];
        q.position = (*fields)[1];
        if (rest.empty()) return q;
        ++line_number; // the line that should not be there
        return {};
    }

private:
    static bool letters(std::optional<std::string_view> list, std::vector<std::uint32_t>& letters) {
        if (!list) return false;
        if (list->empty()) return true;
        const auto numbers = numbers_of(*list, 4294967295);
        if (numbers) letters = *numbers;
        return numbers.has_value();
    }

    std::string_view rest;
};

std::string refused(std::uint32_t number) { return "refused=" + std::to_string(number) + "\n"; }

} // namespace

std::string explain(std::span<const std::uint8_t> text) {
    if (text.size() > MAX_TEXT) return refused(14);
    reader r({reinterpret_cast<const char*>(text.data()), text.size()});
    const std::optional<question> q = r.read();
    if (!q) return refused(13) + "line=" + std::to_string(r.line_number) + "\n";
    std::vector<std::uint16_t> work(MIN_WORK);
    std::vector<std::uint32_t> tree(MAX_TREE);
    const answer a = write(q->prefix, q->loop, q->table, q->entry, q->position, work, tree);
    if (a.number != 0) return refused(a.number);
    std::string out = a.verdict == HOLDS ? "verdict=holds\n" : "verdict=violated\n";
    out += "size=" + std::to_string(a.size) + "\n";
    for (std::uint32_t word : words(tree).first(a.size)) {
        const node_fields node = node_of(word);
        out += "node=" + std::to_string(node.rule) + "," + std::to_string(node.atom) + "," +
               std::to_string(node.number) + "\n";
    }
    return out;
}

} // namespace second
