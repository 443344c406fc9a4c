// Holding the library against a case.
#pragma once

#include "cases.hpp"

namespace compare {

// Whether the library has the call.
bool offers(second::call what);

// Throws second::failure, with the whole case, if the library answers another answer or leaves other buffers.
void hold(const second::test_case& c, std::uint32_t junk);

} // namespace compare
