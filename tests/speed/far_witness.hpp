// Check calls whose trees have about as many words as wanted: an until that holds, with a witness so far off.
#pragma once

#include "cases.hpp"

namespace speed {

// The question is lists and asked entry as a case file has them, "prefix;loop;table entry". The entry is an
// until whose left holds everywhere and whose right holds after position 0, where it is asked. The tree has
// as many list members as fit into so many words, each with its least tree.
second::test_case far_witness(const std::string& question, std::size_t words);

} // namespace speed
