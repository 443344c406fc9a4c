// self_test CASES [SEED]: the second program's own tests. CASES is the folder of the case files.
#include "draws.hpp"
#include "parts.hpp"

#include <chrono>
#include <iostream>

int main(int argc, char** argv) try {
    using namespace second;
    if (argc < 2 || argc > 3) {
        std::cerr << "self_test CASES [SEED]\n";
        return 2;
    }
    const std::uint64_t seed = argc == 3 ? std::stoull(argv[2]) : 1;
    std::cout << "seed " << seed << share_said() << std::endl;
    const auto start = std::chrono::steady_clock::now();
    const auto show = [&](const std::string& line) {
        const std::chrono::duration<double> spent = std::chrono::steady_clock::now() - start;
        std::cout << line << "\n    after " << std::uint64_t(spent.count() * 10) / 10.0 << " s" << std::endl;
    };
    show(test_cases(argv[1]));
    show(test_temptations());
    show(test_short_lists());
    show(test_enumerated(random_source(seed)));
    show(test_meaning(random_source(seed + 1)));
    show(test_shapes(random_source(seed + 2)));
    std::cout << "second program: all parts passed\n";
} catch (const std::exception& e) {
    std::cout.flush();
    std::cerr << "second program: FAILED\n" << e.what() << "\n";
    return 1;
}
