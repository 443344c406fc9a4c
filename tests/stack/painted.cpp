// Pages of our own as a stack, entered and left by swapcontext.
#include "painted.hpp"

#include <algorithm>
#include <cerrno>
#include <cstdint>
#include <span>
#include <system_error>

#include <sys/mman.h>
#include <ucontext.h>

namespace stack {

namespace {

// Far more than is allowed, so that what needs too much is measured; what needs still more
// meets the guard and ends the program.
constexpr std::size_t GUARD = 65536, ROOM = 1 << 20;
constexpr std::uint64_t PAINT = 0x7c1d5a93e6b80f42;

// makecontext hands a function nothing but ints, so what is to be run stands here.
const std::function<void()>* to_run;

void start() { (*to_run)(); }

std::error_code last_error() { return {errno, std::generic_category()}; }

} // namespace

painted_stack::painted_stack() {
    void* const mapped =
        mmap(nullptr, GUARD + ROOM, PROT_READ | PROT_WRITE, MAP_PRIVATE | MAP_ANONYMOUS, -1, 0);
    if (mapped == MAP_FAILED) throw std::system_error(last_error(), "mmap");
    if (mprotect(mapped, GUARD, PROT_NONE) != 0) throw std::system_error(last_error(), "mprotect");
    pages = static_cast<std::byte*>(mapped);
}

painted_stack::~painted_stack() { munmap(pages, GUARD + ROOM); }

std::size_t painted_stack::depth_of(const std::function<void()>& run) {
    const std::span<std::uint64_t> words(reinterpret_cast<std::uint64_t*>(pages + GUARD),
                                         ROOM / sizeof(std::uint64_t));
    std::ranges::fill(words, PAINT);
    ucontext_t here, there;
    if (getcontext(&there) != 0) throw std::system_error(last_error(), "getcontext");
    there.uc_stack.ss_sp = words.data();
    there.uc_stack.ss_size = words.size_bytes();
    there.uc_link = &here;
    to_run = &run;
    makecontext(&there, start, 0);
    if (swapcontext(&here, &there) != 0) throw std::system_error(last_error(), "swapcontext");
    const auto lowest = std::ranges::find_if(words, [](std::uint64_t word) { return word != PAINT; });
    return std::size_t(words.end() - lowest) * sizeof(std::uint64_t);
}

} // namespace stack
