// Random numbers that are the same on every machine (splitmix64).
#pragma once

#include <cstdint>
#include <vector>

namespace second {

class random_source {
public:
    explicit random_source(std::uint64_t seed) : state(seed) {}

    std::uint64_t next() {
        std::uint64_t z = state += 0x9e3779b97f4a7c15;
        z = (z ^ z >> 30) * 0xbf58476d1ce4e5b9;
        z = (z ^ z >> 27) * 0x94d049bb133111eb;
        return z ^ z >> 31;
    }

    std::uint64_t below(std::uint64_t n) { return next() % n; }
    std::uint64_t between(std::uint64_t low, std::uint64_t high) { return low + below(high - low + 1); }
    bool one_in(std::uint64_t n) { return below(n) == 0; }

    template <class T> T pick(const std::vector<T>& from) { return from[below(from.size())]; }
    std::uint64_t pick(std::initializer_list<std::uint64_t> from) { return from.begin()[below(from.size())]; }

private:
    std::uint64_t state;
};

} // namespace second
