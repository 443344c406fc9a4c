// The parts of the comparison. Each throws second::failure at the first difference and
// returns the lines of its counts.
#pragma once

#include "random.hpp"

#include <filesystem>
#include <string>

namespace compare {

// The lines of all case files in a folder, as far as the library has their call.
std::string case_files(const std::filesystem::path& folder);

// Random calls of truth, find and write.
std::string lent_calls(second::random_source r);

// Random calls of check.
std::string check_calls(second::random_source r);

} // namespace compare
