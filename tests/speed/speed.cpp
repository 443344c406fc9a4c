// speed: how long the library's calls take.
#include "speed.hpp"

#include <iomanip>
#include <iostream>

int main() try {
    std::cout << std::fixed << std::setprecision(3);
    speed::report_write();
    speed::report_check();
} catch (const std::exception& e) {
    std::cout.flush();
    std::cerr << "speed: FAILED\n" << e.what() << "\n";
    return 1;
}
