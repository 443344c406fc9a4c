// How much stack the text function takes.
#pragma once

#include <cstddef>

namespace text {

// On texts of 32 entries one above the other. Throws second::failure if it is more than a fibre of an editor
// script has, or if a text is answered otherwise than it should be.
std::size_t deepest();

} // namespace text
