// What a part of the self test has met: names with counts, refusal numbers, root rules. A name
// that was never met is a failure.
#pragma once

#include "rules.hpp"

#include <array>
#include <cstdint>
#include <map>
#include <set>
#include <stdexcept>
#include <string>
#include <vector>

namespace second {

// Thrown at the first difference, with all that is needed to see it again.
struct failure : std::runtime_error {
    using std::runtime_error::runtime_error;
};

class tally {
public:
    // `must` are the names, numbers and rules that the part has to meet.
    tally(std::string part, const std::vector<std::string>& must, const std::set<std::uint32_t>& refusals,
          const std::set<std::uint32_t>& rules);

    void met(const std::string& name, std::uint64_t times = 1) { names[name] += times; }
    void met_refusal(std::uint32_t number) { if (number != 0) ++refusals[number]; }
    void met_root(std::uint32_t word) { ++roots[node_of(word).rule]; }

    // The lines to print; throws if something that must be met was not.
    std::string line() const;

private:
    std::string part;
    std::map<std::string, std::uint64_t> names;
    std::map<std::uint32_t, std::uint64_t> refusals, roots;
};

} // namespace second
