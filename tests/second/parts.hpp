// The parts of the self test. Each throws `failure` at the first difference
// and returns the line of its counts.
#pragma once

#include "cases.hpp"
#include "random.hpp"
#include "tally.hpp"

namespace second {

// The lines of all case files in a folder.
std::string test_cases(const std::filesystem::path& folder);

// The reference against every valid tree of tiny inputs.
std::string test_enumerated(random_source r);

// The checker on all lists of up to four words over the words that could matter.
std::string test_short_lists();

// Truth against the definition's own words.
std::string test_meaning(random_source r);

// "Errors a bidder will be tempted by", each made on purpose and told apart.
std::string test_temptations();

// Random cases of all shapes against judges that use another way.
std::string test_shapes(random_source r);

} // namespace second
