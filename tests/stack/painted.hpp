// A stack that is painted before something runs on it, so that afterwards it shows how deep that went.
#pragma once

#include <cstddef>
#include <functional>

namespace stack {

class painted_stack {
public:
    painted_stack();
    ~painted_stack();
    painted_stack(const painted_stack&) = delete;
    painted_stack& operator=(const painted_stack&) = delete;

    // Runs it on this stack; the bytes from the top down to the lowest that was written.
    std::size_t depth_of(const std::function<void()>& run);

private:
    std::byte* pages; // the lowest is a guard
};

} // namespace stack
