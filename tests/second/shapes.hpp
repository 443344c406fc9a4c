// Random cases of many shapes, each with the reference's answer.
#pragma once

#include "cases.hpp"
#include "random.hpp"

namespace second {

// The names of all shapes, in the order in which print_cases goes round them.
std::vector<std::string> shape_names();

// A case of the named shape; throws std::out_of_range for a name that is none.
test_case case_of_shape(const std::string& shape, random_source& r);

// Puts the reference's answer into a case; or that of an engine for the case's lists, which truth,
// find, write and check are asked of.
void answer_case(test_case& c);
void answer_case(test_case& c, engine& e);

// A valid tree for the entry at the position, seldom the least, of at most 4,095 words;
// the least one if none such came up.
std::vector<std::uint32_t> random_tree(const test_case& c, random_source& r);

// One random damage to a list of words: something that a wrong writer, or a wrong reader of 01, might do.
void damage_tree(std::vector<std::uint32_t>& tree, std::size_t loop, random_source& r);

// The text that asks what a case asks, and one random damage to a text.
std::string text_of_question(const test_case& c);
void damage_text(std::string& text, random_source& r);

} // namespace second
