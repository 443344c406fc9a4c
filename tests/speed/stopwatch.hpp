// How long a call takes.
#pragma once

#include <functional>

namespace speed {

// Seconds of one call: the least of some batches, each long enough for the clock. A
// call that takes long is made once.
double seconds_of(const std::function<void()>& call);

struct both_seconds {
    double one, other;
};

// The same of two calls, a batch of each by turns, so that what else the
// machine has to do falls on both alike.
// It is one round of some, and shorter.
both_seconds seconds_of_both(const std::function<void()>& one, const std::function<void()>& other);

} // namespace speed
