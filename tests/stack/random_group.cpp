// Random calls of a shape of the second program.
#include "deep.hpp"

#include "shapes.hpp"

namespace stack {

group random_group(const std::string& shape, int calls) {
    group g{"random, " + shape, {}};
    second::random_source r(1);
    for (int k = 0; k < calls; ++k) g.calls.push_back(second::case_of_shape(shape, r));
    return g;
}

} // namespace stack
