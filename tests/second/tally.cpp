// Printing counts, and insisting on them.
#include "tally.hpp"

namespace second {

tally::tally(std::string part, const std::vector<std::string>& must, const std::set<std::uint32_t>& numbers,
             const std::set<std::uint32_t>& rules)
    : part(std::move(part)) {
    for (const std::string& name : must) names[name] = 0;
    for (std::uint32_t number : numbers) refusals[number] = 0;
    for (std::uint32_t rule : rules) roots[rule] = 0;
}

std::string tally::line() const {
    std::string s = part + "\n   ";
    const auto add = [&](const std::string& name, std::uint64_t count) {
        if (count == 0) throw failure(part + ": never met: " + name);
        s += " " + name + ": " + std::to_string(count) + ",";
    };
    const auto next = [&](const char* group) { s.back() = '\n', s += group; };
    for (const auto& [name, count] : names) add(name, count);
    if (!refusals.empty()) next("    refusals");
    for (const auto& [number, count] : refusals) add(std::to_string(number), count);
    if (!roots.empty()) next("    root rules");
    for (const auto& [rule, count] : roots) add(std::to_string(rule), count);
    s.pop_back();
    return s;
}

} // namespace second
