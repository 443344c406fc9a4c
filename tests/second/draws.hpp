// How many random draws a run makes: all, or a part of them where programs run slowly.
#pragma once

#include <algorithm>
#include <cstddef>
#include <cstdlib>
#include <string>

namespace second {

// One in how many is drawn: what the environment has as DRAW_ONE_IN, and 1 otherwise.
inline std::size_t draw_one_in() {
    const char* const given = std::getenv("DRAW_ONE_IN");
    return given == nullptr || *given == '\0' ? 1 : std::max<std::size_t>(std::stoull(given), 1);
}

// As many of so many draws as this run makes, one at least. Counts of draws go by it, and the least counts of
// what they make; what has to come up at all does not.
inline std::size_t share_of(std::size_t all) { return std::max<std::size_t>(all / draw_one_in(), 1); }

// What a run says of it behind its seed.
inline std::string share_said() {
    return draw_one_in() == 1 ? "" : ", one draw in " + std::to_string(draw_one_in());
}

} // namespace second
