// compare CASES [SEED]: the proved library against the second program, call by call. CASES
// is the folder of the case files.
#include "comparison.hpp"

#include "draws.hpp"

#include <iostream>

int main(int argc, char** argv) try {
    using namespace compare;
    if (argc < 2 || argc > 3) {
        std::cerr << "compare CASES [SEED]\n";
        return 2;
    }
    const std::uint64_t seed = argc == 3 ? std::stoull(argv[2]) : 1;
    std::cout << "seed " << seed << second::share_said() << std::endl;
    std::cout << case_files(argv[1]) << std::endl;
    std::cout << lent_calls(second::random_source(seed + 1)) << std::endl;
    std::cout << check_calls(second::random_source(seed)) << std::endl;
    std::cout << "comparison: no difference\n";
} catch (const std::exception& e) {
    std::cout.flush();
    std::cerr << "comparison: FAILED\n" << e.what() << "\n";
    return 1;
}
