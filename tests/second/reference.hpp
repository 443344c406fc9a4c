// The second program: every answer of document 01, worked out another way than
// the proved program works it out.
#pragma once

#include "rules.hpp"

#include <memory>
#include <string>

namespace second {

// Fields as 01 has them: a refusal has number and, for 9 and 13, place; success has number 0 and a verdict.
struct answer {
    std::uint32_t number = 0, place = 0, verdict = 0, size = 0;
    bool operator==(const answer&) const = default;
};

// One schedule and one table for many calls: what was worked out for one call is kept for the
// next. It keeps copies of the lists.
class engine {
public:
    engine(words prefix, words loop, words table);
    ~engine();

    answer truth(std::size_t entry, std::size_t position, std::span<std::uint16_t> work);
    answer find(std::size_t entry, std::size_t position, std::span<std::uint16_t> work);
    answer write(std::size_t entry, std::size_t position, std::span<std::uint16_t> work,
                 std::span<std::uint32_t> tree);
    answer check(std::size_t entry, std::size_t position, words tree) const;

private:
    struct inside;
    std::uint32_t asked_refusal(std::size_t entry, std::size_t position) const;
    std::uint32_t lent_refusal(std::size_t entry, std::size_t position, std::span<std::uint16_t> work) const;

    std::uint32_t refusal; // the first of 1 to 5 that the lists earn, or 0
    std::unique_ptr<inside> in;
};

// The calls of the C interface, in its order of parameters. The view is declared in rules.hpp.
answer truth(words prefix, words loop, words table, std::size_t entry, std::size_t position,
             std::span<std::uint16_t> work);
answer find(words prefix, words loop, words table, std::size_t entry, std::size_t position,
            std::span<std::uint16_t> work);
answer write(words prefix, words loop, words table, std::size_t entry, std::size_t position,
             std::span<std::uint16_t> work, std::span<std::uint32_t> tree);
answer check(words prefix, words loop, words table, std::size_t entry, std::size_t position, words tree);

// The text program: standard input as bytes, standard output as bytes.
std::string explain(std::span<const std::uint8_t> text);

} // namespace second
