// reading CASES [SEED]: chickvessel_text.hpp against the second program: a text is refused with the same
// number and line; the lists that are read, printed again, are the text; explain gives the same bytes. CASES
// is the folder of the case files.
#define _GLIBCXX_ASSERTIONS // every index into a span is tested
#include "chickvessel_text.hpp"
#include "draws.hpp"
#include "reference.hpp"
#include "shapes.hpp"
#include "tally.hpp"

#include <algorithm>
#include <iostream>

namespace {

using namespace second;

constexpr std::size_t SOUND = 4000, DAMAGED = 4000;

// Lists full of junk, to see what a reading leaves in them.
chickvessel::text_lists junk(random_source& r) {
    chickvessel::text_lists lists;
    for (std::uint32_t& n : lists.prefix) n = std::uint32_t(r.next());
    for (std::uint32_t& n : lists.loop) n = std::uint32_t(r.next());
    for (std::uint32_t& n : lists.table) n = std::uint32_t(r.next());
    lists.prefix_length = 7, lists.loop_length = 5, lists.table_length = 3;
    lists.entry = 11, lists.position = 13;
    return lists;
}

// From some number on as found.
template <class List> bool same_from(std::size_t first, const List& now, const List& found) {
    return std::equal(now.begin() + std::ptrdiff_t(first), now.end(), found.begin() + std::ptrdiff_t(first));
}

bool as_found(const chickvessel::text_lists& now, const chickvessel::text_lists& found) {
    return same_from(0, now.prefix, found.prefix) && same_from(0, now.loop, found.loop) &&
           same_from(0, now.table, found.table) && now.prefix_length == found.prefix_length &&
           now.loop_length == found.loop_length && now.table_length == found.table_length &&
           now.entry == found.entry && now.position == found.position;
}

std::string list_of(words numbers) {
    std::string s;
    for (std::uint32_t n : numbers) s += (s.empty() ? "" : ",") + std::to_string(n);
    return s;
}

// The lines of a text, without their newlines.
std::vector<std::string> lines_of(const std::string& text) {
    std::vector<std::string> lines;
    for (std::size_t at = 0; at < text.size();) {
        const std::size_t end = std::min(text.find('\n', at), text.size());
        lines.push_back(text.substr(at, end - at));
        at = end + 1;
    }
    return lines;
}

// A number has one way to be written, so the lists printed again are the text; of a list without room for
// all, the line begins with it.
bool printed_again(const chickvessel::text_lists& lists, const std::string& text, tally& t) {
    const chickvessel::question q = lists.question();
    const std::vector<std::string> lines = lines_of(text);
    const std::size_t entries = lines.size() - 3;
    const auto is_line = [&](const std::string& line, const char* key, words letters) {
        const std::string printed = key + list_of(letters);
        if (letters.size() < lists.prefix.size()) return line == printed;
        t.met("lists with all the room taken");
        return line == printed || line.starts_with(printed + ",");
    };
    if (!is_line(lines[0], "prefix=", q.prefix) || !is_line(lines[1], "loop=", q.loop)) return false;
    if (q.table.size() != std::min(entries, lists.table.size())) return false;
    if (entries > lists.table.size()) t.met("tables cut");
    for (std::size_t k = 0; k < q.table.size(); ++k) {
        const std::uint32_t fields[] = {q.table[k] >> 16, q.table[k] >> 8 & 255, q.table[k] & 255};
        if (lines[2 + k] != "entry=" + list_of(fields)) return false;
    }
    return lines.back() == "ask=" + std::to_string(q.entry) + "," + std::to_string(q.position);
}

void hold(const std::string& text, tally& t, random_source& r) {
    const auto insist = [&](bool as_should, const char* what) {
        if (!as_should) throw failure(std::string("reading: ") + what + ":\n" + text);
    };
    const std::string right = explain({reinterpret_cast<const std::uint8_t*>(text.data()), text.size()});
    const chickvessel::text_lists found = junk(r);
    chickvessel::text_lists lists = found;
    const chickvessel::reading read = chickvessel::read_text(text, lists);
    std::string refused;
    if (!read) refused = "refused=" + std::to_string(std::uint32_t(read.refused)) + "\n";
    if (read.line != 0) refused += "line=" + std::to_string(read.line) + "\n";
    if (right.starts_with("refused=13\n") || right.starts_with("refused=14\n")) {
        insist(refused == right, "another refusal");
        insist(as_found(lists, found), "a refusal changes the lists");
        t.met(read.line != 0 ? "wrong lines" : "long texts");
    } else {
        insist(refused.empty(), "a refusal");
        insist(printed_again(lists, text, t), "other lists");
        insist(same_from(lists.prefix_length, lists.prefix, found.prefix) &&
                   same_from(lists.loop_length, lists.loop, found.loop) &&
                   same_from(lists.table_length, lists.table, found.table),
               "numbers behind the lists are changed");
        t.met("texts read");
    }
    static chickvessel::work_slice work;
    static chickvessel::tree_room room;
    static chickvessel::output_room out;
    insist(chickvessel::explain(text, work, room, out) == right, "explain gives something else");
    t.met("texts explained");
}

} // namespace

int main(int argc, char** argv) try {
    if (argc < 2) throw failure("reading CASES [SEED]");
    random_source r(argc > 2 ? std::stoull(argv[2]) : 1);
    tally t("reading",
            {"texts of case files", "texts read", "wrong lines", "long texts", "texts explained",
             "lists with all the room taken", "tables cut"},
            {}, {});
    for (const test_case& c : read_cases(std::filesystem::path(argv[1]) / "text.txt"))
        if (c.what == call::explain) hold(c.text, t, r), t.met("texts of case files");
    for (std::size_t k = 0; k < share_of(SOUND); ++k) hold(case_of_shape("text", r).text, t, r);
    for (std::size_t k = 0; k < share_of(DAMAGED); ++k) hold(case_of_shape("damaged-text", r).text, t, r);
    std::cout << t.line() << share_said() << "\n";
} catch (const std::exception& e) {
    std::cerr << "reading: FAILED\n" << e.what() << "\n";
    return 1;
}
