// Three rules of a village, and a day that is lived for ever, or after an opening, or once.
#include "typical.hpp"

#include "questions.hpp"

namespace speed {

namespace {

using namespace second;

// Atoms 0 "at home", 1 "on the road" and 2 "at work", and letters of one of them.
enum atom : std::uint32_t { HOME, ROAD, WORK };

constexpr std::uint32_t only(atom a) { return 1u << a; }

const list DAY = {only(HOME), only(HOME), only(ROAD), only(WORK),
                  only(WORK), only(WORK), only(ROAD), only(HOME)};

struct named_rule {
    std::string name;
    list table;
};

const named_rule VILLAGE[] = {
    {"off the road until on a walk home",
     {entry_word(ATOM, HOME, 0), entry_word(ATOM, ROAD, 0), entry_word(UNTIL, 1, 0), entry_word(AND, 1, 2),
      entry_word(NOT, 1, 0), entry_word(UNTIL, 4, 3)}},
    {"home, or not home since work, until work",
     {entry_word(ATOM, HOME, 0), entry_word(NOT, 0, 0), entry_word(ATOM, WORK, 0), entry_word(SINCE, 1, 2),
      entry_word(OR, 0, 3), entry_word(UNTIL, 4, 2)}},
    {"home, or out between two times at home",
     {entry_word(ATOM, HOME, 0), entry_word(NOT, 0, 0), entry_word(SINCE, 1, 0), entry_word(UNTIL, 1, 0),
      entry_word(AND, 2, 3), entry_word(OR, 0, 4)}},
};

} // namespace

std::vector<asked> typical_questions(std::size_t position) {
    std::vector<asked> all;
    for (const named_rule& rule : VILLAGE)
        for (std::size_t prefix : {0, 2, 7})
            all.push_back({rule.name + "; prefix " + std::to_string(prefix),
                           question(rule.table, DAY, prefix, position)});
    return all;
}

std::vector<asked> smallest_questions() {
    std::vector<asked> all;
    for (std::size_t position : {std::size_t(0), MAX_POSITION})
        all.push_back({"asked at " + std::to_string(position),
                       question({entry_word(ATOM, HOME, 0)}, {only(HOME)}, 0, position)});
    return all;
}

} // namespace speed
