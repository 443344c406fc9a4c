// The changes that are made to a call, one at a time: to what is asked, to the lists, and
// to the tree that a check call has.
#pragma once

#include "cases.hpp"
#include "random.hpp"

namespace compare {

struct change {
    std::string name;
    // Makes it; false, and nothing is changed, where the call has nothing of the kind.
    bool (*make)(second::test_case& c, second::random_source& r);
};

// Those to what is asked and to the lists.
std::vector<change> question_changes();

// None at all, these, and those to the tree.
std::vector<change> check_changes();

} // namespace compare
