// The lengths by name.
#include "lengths.hpp"

#include "rules.hpp"

namespace compare {

using second::MAX_TREE, second::MIN_WORK;

std::vector<length> work_lengths() {
    return {
        {"work null", 0},
        {"work one too short", MIN_WORK - 1},
        {"work just enough", MIN_WORK},
        {"work one more", MIN_WORK + 1},
        {"work longer", MIN_WORK + 3000},
    };
}

std::vector<length> room_lengths(std::size_t words) {
    return {
        {"tree null", 0},
        {"tree one too short", words - 1},
        {"tree just enough", words},
        {"tree one more", words + 1},
        {"tree always enough", MAX_TREE},
        {"tree longer", MAX_TREE + 1000},
    };
}

} // namespace compare
