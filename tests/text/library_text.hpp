// The text function of the proved program, called with buffers of the test's own.
#pragma once

#include "random.hpp"

#include <cstddef>
#include <cstdint>
#include <string>

extern "C" {

// Answers how many bytes of out are the output. The archive that has it exports nothing else, and the header
// has no word of it: it is for tests.
std::size_t chickvessel_explain(const std::uint8_t* text, std::size_t text_len, std::uint16_t* work,
                                std::uint32_t* tree, std::uint8_t* out);
}

namespace text {

// 4,095 node lines of at most 19 bytes, and 40 bytes for verdict and size.
inline constexpr std::size_t OUT = 4095 * 19 + 40;

// Holds the text function against the right output for a text. The buffers hold junk before, and lie between
// guards. Throws second::failure if the output is another, if a guard or a byte behind the output has
// changed, or if work and tree are left otherwise than the contract says.
void hold(const std::string& text, const std::string& right, second::random_source& r);

} // namespace text
