// The conditions of 01's table of refusals, each by itself, and the text format, by printing what was read.
#include "judges.hpp"

#include "enumerate.hpp"
#include "least.hpp"
#include "plain_meaning.hpp"

#include <algorithm>
#include <optional>
#include <set>

namespace second {

namespace {

bool breaks_kind_table(words table) {
    for (std::size_t k = 0; k < table.size(); ++k) {
        const std::uint32_t kind = table[k] >> 16, left = table[k] >> 8 & 255, right = table[k] & 255;
        const bool left_earlier = left < k, right_earlier = right < k;
        const bool fine[] = {left < 32 && right == 0, left_earlier && right == 0,
                             left_earlier && right_earlier};
        if (kind > 5 || !fine[std::min(kind, 2u)]) return true;
    }
    return false;
}

// The most operators of one kind on a way down from an entry, by counting ways
// of each length until none is left.
std::uint32_t height(words table, std::size_t entry, std::uint32_t counted) {
    // Entries reached with so many counted on the way.
    std::map<std::uint32_t, std::set<std::size_t>> at = {{0, {entry}}};
    std::uint32_t most = 0;
    for (std::uint32_t count = 0; at.contains(count); ++count) {
        most = count;
        // Parts are smaller than what they are parts of, so falling order
        // reaches each after all that reach it.
        for (std::set<std::size_t>& reached = at[count]; !reached.empty();) {
            const std::size_t k = *reached.rbegin();
            reached.erase(k);
            const entry_fields e = entry_of(table[k]);
            const std::uint32_t after = count + (e.kind == counted);
            if (e.kind == counted) most = std::max(most, after);
            if (e.kind >= NOT) at[after].insert(e.left);
            if (e.kind >= OR) at[after].insert(e.right);
        }
    }
    return most;
}

bool too_high(words table) {
    for (std::size_t k = 0; k < table.size(); ++k)
        if (height(table, k, SINCE) + height(table, k, UNTIL) > 5) return true;
    return false;
}

bool short_lists(const test_case& c) {
    return c.prefix.size() + c.loop.size() <= 6 && c.table.size() <= 8 && c.position < 40;
}

} // namespace

std::uint64_t exact_size(const test_case& c) {
    const setting where = setting_of(c.prefix, c.loop, c.table);
    const meaning truth(where);
    return least(where, truth, 6000).size(c.entry, c.position);
}

answer judged_answer(const test_case& c) {
    std::set<std::uint32_t> numbers;
    if (c.loop.size() == 0) numbers.insert(1);
    if (c.prefix.size() + c.loop.size() > 48) numbers.insert(2);
    if (c.table.size() == 0 || c.table.size() > 32) numbers.insert(3);
    if (breaks_kind_table(c.table)) numbers.insert(4);
    else if (too_high(c.table)) numbers.insert(5);
    if (c.entry >= c.table.size()) numbers.insert(6);
    if (c.position > 255) numbers.insert(7);
    std::optional<std::size_t> broken;
    std::uint64_t size = 0;
    if (numbers.empty() && c.what == call::check && c.tree.size() <= 4095) {
        broken = enumerator(c.prefix, c.loop, c.table).break_of(c.entry, c.position, c.tree);
        if (broken) numbers.insert(9);
    }
    if (numbers.empty() && (c.what == call::find || c.what == call::write)) {
        size = exact_size(c);
        if (size > 4095) numbers.insert(11);
        if (c.room < size) numbers.insert(12);
    }
    if (c.work < 16384) numbers.insert(8);
    if (c.tree.size() > 4095) numbers.insert(10);
    static const std::map<call, std::vector<std::uint32_t>> ORDER = {
        {call::truth, {1, 2, 3, 4, 5, 6, 7, 8}},
        {call::find, {1, 2, 3, 4, 5, 6, 7, 8, 11}},
        {call::write, {1, 2, 3, 4, 5, 6, 7, 8, 11, 12}},
        {call::check, {1, 2, 3, 4, 5, 6, 7, 10, 9}}};
    for (std::uint32_t number : ORDER.at(c.what))
        if (numbers.contains(number)) return {number, number == 9 ? std::uint32_t(*broken) : 0, 0, 0};
    std::uint32_t verdict = c.expected.verdict;
    if (c.what == call::check)
        verdict = std::set<std::uint32_t>{1, 3, 5, 6, 8, 11, 14}.contains(c.tree[0] >> 24) ? 1 : 2;
    else if (short_lists(c))
        verdict = plain_meaning(c.prefix, c.loop, c.table).holds(c.entry, c.position) ? 1 : 2;
    return {0, 0, verdict, std::uint32_t(size)};
}

std::size_t judged_first(const test_case& c) {
    if (c.position < c.prefix.size()) return c.position;
    const std::uint64_t steps = c.position - c.prefix.size();
    std::size_t at = 0;
    for (int bit = 63; bit >= 0; --bit) {
        at = 2 * at + (steps >> bit & 1);
        while (!c.loop.empty() && at >= c.loop.size()) at -= c.loop.size();
    }
    return c.loop.empty() ? 0 : at;
}

namespace {

// The numbers of a line "name=1,2,3", whatever stands there, and what printing them gives.
struct line_read {
    std::vector<std::uint64_t> numbers;
    std::string printed;

    line_read(const std::string& name, const std::string& line) : printed(name) {
        std::string digits = line.substr(std::min(line.size(), name.size()));
        for (std::size_t from = 0; !digits.empty() && from <= digits.size();) {
            const std::size_t comma = std::min(digits.find(',', from), digits.size());
            numbers.push_back(std::strtoull(digits.substr(from, comma - from).c_str(), nullptr, 10));
            printed += (numbers.size() > 1 ? "," : "") + std::to_string(numbers.back());
            from = comma + 1;
        }
    }

    bool is(const std::string& line, std::uint64_t greatest) const {
        return printed == line &&
               std::all_of(numbers.begin(), numbers.end(), [&](std::uint64_t n) { return n <= greatest; });
    }
};

// The first wrong line, or 0 and the question.
std::size_t first_wrong_line(std::string text, test_case& c) {
    bool asked = false;
    for (std::size_t number = 1;; ++number) {
        if (asked) return text.empty() ? 0 : number;
        const std::size_t end = text.find('\n');
        if (end == text.npos) return number;
        const std::string line = text.substr(0, end);
        text.erase(0, end + 1);
        const std::string name = number == 1                  ? "prefix="
                                 : number == 2                ? "loop="
                                 : line.starts_with("entry=") ? "entry="
                                                              : "ask=";
        const line_read read(name, line);
        const std::size_t many = read.numbers.size();
        if (number <= 2) {
            if (!read.is(line, 4294967295)) return number;
            (number == 1 ? c.prefix : c.loop).assign(read.numbers.begin(), read.numbers.end());
        } else if (name == "entry=") {
            if (!read.is(line, 255) || many != 3) return number;
            c.table.push_back(std::uint32_t(read.numbers[0] << 16 | read.numbers[1] << 8 | read.numbers[2]));
        } else {
            if (!read.is(line, 65535) || many != 2) return number;
            c.entry = read.numbers[0], c.position = read.numbers[1];
            asked = true;
        }
    }
}

} // namespace

std::string judged_output(const std::string& text) {
    if (text.size() > 8192) return "refused=14\n";
    test_case c;
    c.what = call::write, c.work = 16384, c.room = 4095;
    if (const std::size_t line = first_wrong_line(text, c))
        return "refused=13\nline=" + std::to_string(line) + "\n";
    std::vector<std::uint16_t> work(c.work);
    std::vector<std::uint32_t> tree(c.room);
    c.expected = write(c.prefix, c.loop, c.table, c.entry, c.position, work, tree);
    const answer a = judged_answer(c);
    if (a.number != 0) return "refused=" + std::to_string(a.number) + "\n";
    std::string printed = std::string("verdict=") + (a.verdict == 1 ? "holds" : "violated") +
                          "\nsize=" + std::to_string(a.size) + "\n";
    for (std::size_t k = 0; k < a.size; ++k)
        printed += "node=" + std::to_string(tree[k] >> 24) + "," + std::to_string(tree[k] >> 16 & 255) + "," +
                   std::to_string(tree[k] & 65535) + "\n";
    return printed;
}

} // namespace second
