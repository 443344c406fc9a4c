// How the time of a check grows with the words of the tree, and what nodes of rule 16
// cost on a table with many ways down.
#include "speed.hpp"

#include "far_witness.hpp"
#include "stopwatch.hpp"

#include "library.hpp"

#include <algorithm>
#include <iomanip>
#include <iostream>
#include <stdexcept>

namespace speed {

namespace {

using second::test_case;

double library_seconds(const test_case& c) {
    second::answer got;
    const double seconds = seconds_of(
        [&] { got = library::check(c.prefix, c.loop, c.table, c.entry, c.position, c.tree); });
    if (got != c.expected) throw std::runtime_error("another answer to\n" + line_of(c));
    return seconds;
}

double second_seconds(const test_case& c) {
    return seconds_of([&] { second::check(c.prefix, c.loop, c.table, c.entry, c.position, c.tree); });
}

struct ordinary {
    std::string name, question;
};

const ordinary TABLES[] = {
    {"atoms", ";3;0,0,0/0,1,0/5,0,1 2"},
    {"every kind", "4;5,1,5;0,0,0/0,1,0/0,2,0/1,1,0/4,0,2/3,3,4/2,1,5/5,1,2/1,7,0/2,8,6/5,9,0 10"},
    {"rule 16 in every member", ";1;0,0,0/0,1,0/4,1,1/5,0,2/1,3,0/5,4,0 5"},
};

void print_growth(const ordinary& table) {
    struct row {
        test_case c;
        double library = 1e9, second = 1e9;
    };
    std::vector<row> rows;
    for (std::size_t words : {500, 1000, 2000, 4000}) rows.push_back({far_witness(table.question, words)});
    // In rounds, so that what else the machine has to do falls on all sizes alike.
    for (int round = 0; round < 5; ++round)
        for (row& r : rows) {
            r.library = std::min(r.library, library_seconds(r.c));
            r.second = std::min(r.second, second_seconds(r.c));
        }

    std::cout << table.name << "\n    words   microseconds   nanoseconds a word   "
              << "a word, to that of the first   to the second program\n";
    const auto a_word = [](const row& r) { return r.library / double(r.c.tree.size()); };
    for (const row& r : rows)
        std::cout << std::setw(9) << r.c.tree.size() << std::setw(15) << r.library * 1e6 << std::setw(21)
                  << a_word(r) * 1e9 << std::setw(31) << a_word(r) / a_word(rows[0]) << std::setw(24)
                  << r.library / r.second << "\n";
}

// 0 atom 0, never; and(k - 1, k - 2) up to `last`; then 0 and last; 0 until that, violated by rule 16; its
// not; and the until that is asked.
std::string branching(std::size_t last) {
    const auto entry = [](std::size_t kind, std::size_t left, std::size_t right) {
        return "/" + std::to_string(kind) + "," + std::to_string(left) + "," + std::to_string(right);
    };
    std::string table = "0,0,0/3,0,0";
    for (std::size_t k = 2; k <= last; ++k) table += entry(3, k - 1, k - 2);
    table += entry(3, 0, last) + entry(5, 0, last + 1) + entry(1, last + 2, 0) + entry(5, last + 3, last + 3);
    return ";0;" + table + " " + std::to_string(last + 4);
}

void print_branching() {
    std::cout << "and(k - 1, k - 2), trees of 1000 words\n"
              << "    entries   nodes of rule 16   milliseconds   "
              << "of these before the tree   microseconds a node\n";
    for (std::size_t last : {3, 7, 11, 15, 19, 23, 27}) {
        const test_case c = far_witness(branching(last), 1000);
        test_case no_tree = c;
        no_tree.tree.clear(), no_tree.expected = {9, 0, 0, 0};
        const auto nodes = std::ranges::count_if(
            c.tree, [](std::uint32_t word) { return second::node_of(word).rule == 16; });
        const double seconds = library_seconds(c), before = library_seconds(no_tree);
        std::cout << std::setw(11) << c.table.size() << std::setw(19) << nodes << std::setw(15)
                  << seconds * 1e3 << std::setw(27) << before * 1e3 << std::setw(22)
                  << (seconds - before) / double(nodes) * 1e6 << "\n";
    }
}

} // namespace

void report_check() {
    std::cout << "check, by the words of the tree\n";
    for (const ordinary& table : TABLES) print_growth(table);
    print_branching();
}

} // namespace speed
