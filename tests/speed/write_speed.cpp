// Write on typical questions and on the dearest: the library, and the plain program beside it.
#include "speed.hpp"

#include "dear.hpp"
#include "side_by_side.hpp"
#include "typical.hpp"

#include <algorithm>
#include <array>
#include <iomanip>
#include <iostream>
#include <ranges>

namespace speed {

namespace {

// The times of the library and of the plain program, and their ratio.
void print_times(double library, double plain) {
    std::cout << std::setw(15) << library * 1e6 << std::setw(16) << plain * 1e6 << std::setw(23)
              << library / plain;
}

void print_rows(const group& g) {
    std::cout << "write, " << g.name << "\n    words   microseconds   plain program   to the plain program\n";
    for (const row& r : g.rows) {
        std::cout << std::setw(9) << (r.answer.number == 0 ? std::to_string(r.answer.size) : "refused");
        print_times(r.library.seconds, r.plain.seconds);
        std::cout << "   " << r.name << "\n";
    }
}

// The time of a program for a question of a group, on average.
double mean(const group& g, runner row::*program) {
    double all = 0;
    for (const row& r : g.rows) all += (r.*program).seconds;
    return all / double(g.rows.size());
}

// The ratio of all questions together, and between which the single ones lie.
void print_group(const group& g) {
    const auto [least, greatest] = std::ranges::minmax(g.rows | std::views::transform(&row::ratio));
    std::cout << std::setw(13) << g.rows.size();
    print_times(mean(g, &row::library), mean(g, &row::plain));
    std::cout << std::setw(11) << least << std::setw(10) << greatest << "   " << g.name << "\n";
}

constexpr std::array<std::size_t, 5> POSITIONS = {0, 3, 16, 64, 255};

// The same questions at the first of the positions and at the last.
void print_growth(const group& first, const group& last) {
    const auto growth = [&](runner row::*program) { return mean(last, program) / mean(first, program); };
    std::cout << "    typical, time at " << POSITIONS.back() << " to time at " << POSITIONS.front()
              << ": the library " << growth(&row::library) << ", the plain program " << growth(&row::plain)
              << "\n";
}

void print_filling() {
    std::vector<group> groups = {
        {"the smallest: 1 entry, 1 letter", smallest_questions()},
        {"the dearest: 48 letters, 32 entries, heights at 5, every second entry an until", dear_questions()}};
    const std::size_t typical = groups.size();
    for (std::size_t position : POSITIONS)
        groups.push_back({"typical: 6 entries, 8 letters, asked at " + std::to_string(position),
                          typical_questions(position)});
    measure(groups);
    std::ranges::for_each(groups, print_rows);
    std::cout << "write, these groups, a question on average\n"
              << "    questions   microseconds   plain program   to the plain program   at least   at most\n";
    std::ranges::for_each(groups, print_group);
    print_growth(groups[typical], groups.back());
}

// The plain program works out all heights in one pass; 01 wants each worked out by following the parts down.
void print_heights() {
    std::vector<asked> questions;
    for (std::size_t entries : {8, 12, 16, 20, 24, 28, 32})
        questions.push_back({std::to_string(entries), branching_question(entries)});
    group g("and(k - 1, k - 2)", questions);
    measure({&g, 1});
    std::cout << "write, " << g.name << "\n    entries   microseconds   plain program\n";
    for (const row& r : g.rows)
        std::cout << std::setw(11) << r.name << std::setw(15) << r.library.seconds * 1e6 << std::setw(16)
                  << r.plain.seconds * 1e6 << "\n";
}

} // namespace

void report_write() {
    print_filling();
    print_heights();
}

} // namespace speed
