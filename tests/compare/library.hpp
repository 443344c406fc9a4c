// The calls of the proved library over spans, as the second program has its own. An
// empty list goes as a null pointer.
#pragma once

#include "chickvessel.h"
#include "reference.hpp"

namespace library {

using second::words;

template <class Number>
Number* pointer(std::span<Number> list) {
    return list.empty() ? nullptr : list.data();
}

inline second::answer answer_of(chickvessel_answer a) { return {a.number, a.place, a.verdict, a.size}; }

inline second::answer truth(words prefix, words loop, words table, std::size_t entry, std::size_t position,
                            std::span<std::uint16_t> work) {
    return answer_of(chickvessel_truth(pointer(prefix), prefix.size(), pointer(loop), loop.size(),
                                       pointer(table), table.size(), entry, position, pointer(work),
                                       work.size()));
}

inline second::answer find(words prefix, words loop, words table, std::size_t entry, std::size_t position,
                           std::span<std::uint16_t> work) {
    return answer_of(chickvessel_find(pointer(prefix), prefix.size(), pointer(loop), loop.size(),
                                      pointer(table), table.size(), entry, position, pointer(work),
                                      work.size()));
}

inline second::answer write(words prefix, words loop, words table, std::size_t entry, std::size_t position,
                            std::span<std::uint16_t> work, std::span<std::uint32_t> tree) {
    return answer_of(chickvessel_write(pointer(prefix), prefix.size(), pointer(loop), loop.size(),
                                       pointer(table), table.size(), entry, position, pointer(work),
                                       work.size(), pointer(tree), tree.size()));
}

inline second::answer check(words prefix, words loop, words table, std::size_t entry, std::size_t position,
                            words tree) {
    return answer_of(chickvessel_check(pointer(prefix), prefix.size(), pointer(loop), loop.size(),
                                       pointer(table), table.size(), entry, position, pointer(tree),
                                       tree.size()));
}

} // namespace library
