// A sample in the text format of explain, as a question. Without allocation: the lists have
// room for what is within the limits.
#pragma once

#include "chickvessel.hpp"

#include <cstdio>

namespace client {

struct sample {
    std::uint32_t prefix[chickvessel::max_letters], loop[chickvessel::max_letters];
    std::uint32_t table[chickvessel::max_entries];
    std::size_t prefix_length = 0, loop_length = 0, table_length = 0;
    std::size_t entry = 0, position = 0;

    chickvessel::question question() const {
        return {.prefix = {prefix, prefix_length},
                .loop = {loop, loop_length},
                .table = {table, table_length},
                .entry = entry,
                .position = position};
    }
};

// Reads a text without mistakes; says false where it meets one. It is no judge of texts: explain is.
bool read(std::FILE* from, sample& into);

} // namespace client
