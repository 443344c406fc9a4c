// The second program's shapes.
#include "call_shapes.hpp"

#include "shapes.hpp"

namespace compare {

namespace {

bool asks_something(const std::string& shape) {
    return shape != "view" && shape != "text" && shape != "damaged-text";
}

} // namespace

std::vector<call_shape> shapes_that_ask(std::size_t draws, std::size_t draws_of_and_chains) {
    std::vector<call_shape> shapes;
    for (const std::string& name : second::shape_names())
        if (asks_something(name))
            shapes.push_back({name, name == "and-chain" ? draws_of_and_chains : draws,
                              [name](second::random_source& r) { return second::case_of_shape(name, r); }});
    return shapes;
}

} // namespace compare
