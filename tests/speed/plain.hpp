// The yardstick: chickvessel_write as a plain C++ program of the same recurrences. Only for questions and
// buffers without refusals 1 to 8.
#pragma once

#include "reference.hpp"

namespace plain {

second::answer write(second::words prefix, second::words loop, second::words table, std::size_t entry,
                     std::size_t position, std::span<std::uint16_t> work, std::span<std::uint32_t> tree);

} // namespace plain
