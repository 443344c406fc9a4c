// print_cases SEED COUNT [SHAPE]: random cases with the reference's answers, a line each, the same for the
// same arguments on every machine.
#include "shapes.hpp"

#include <iostream>

int main(int argc, char** argv) try {
    using namespace second;
    if (argc < 3 || argc > 4) {
        std::cerr << "print_cases SEED COUNT [SHAPE]; the shapes are:";
        for (const std::string& name : shape_names()) std::cerr << " " << name;
        std::cerr << "\n";
        return 2;
    }
    const std::vector<std::string> names = argc == 4 ? std::vector<std::string>{argv[3]} : shape_names();
    random_source seeds(std::stoull(argv[1]));
    for (std::uint64_t k = 0, count = std::stoull(argv[2]); k < count; ++k) {
        random_source r(seeds.next()); // a source a case: none depends on those before it
        std::cout << line_of(case_of_shape(names[k % names.size()], r)) << "\n";
    }
} catch (const std::exception& e) {
    std::cerr << "print_cases: " << e.what() << "\n";
    return 2;
}
