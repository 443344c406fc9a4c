// What the texts of a run have met; what has to come up and did not is a failure.
#pragma once

#include "tally.hpp"

namespace text {

class counts {
public:
    counts();

    // A text of a part of the run, and its output.
    void text(const std::string& part, const std::string& text, const std::string& output);
    void trap(const std::string& name) { traps.met(name); }

    // The lines to print. Throws second::failure if there were too few texts, or not all that has to come up.
    std::string lines() const;

private:
    second::tally texts, wrong_lines, traps;
    std::size_t sound = 0, damaged = 0;
};

} // namespace text
