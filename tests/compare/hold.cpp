// The library as a program of the case runner.
#include "hold.hpp"

#include "library.hpp"
#include "tally.hpp"

namespace compare {

namespace {

second::program whole_library() {
    second::program p;
    p.truth = library::truth, p.find = library::find, p.write = library::write, p.check = library::check;
    return p;
}

const second::program LIBRARY = whole_library();

} // namespace

bool offers(second::call what) { return LIBRARY.offers(what); }

void hold(const second::test_case& c, std::uint32_t junk) {
    if (const std::string d = difference(c, LIBRARY, junk); !d.empty())
        throw second::failure(c.where + ": the library " + d + "\nthe call, as a line of a case file:\n" +
                              line_of(c));
}

} // namespace compare
