// Truth by unrolling: since runs forward, until backward, each until its state comes
// again. No threshold of 01 is used.
#include "meaning.hpp"

#include <algorithm>
#include <map>
#include <numeric>

namespace second {

bool endless::comes(bool value, std::uint64_t position) const {
    if (std::find(again.begin(), again.end(), value) != again.end()) return true;
    for (std::uint64_t k = position; k < stem.size(); ++k)
        if (stem[k] == value) return true;
    return false;
}

namespace {

// Where two sequences are both past their stems, and after how many steps both are back at the same phase.
struct joint {
    std::size_t start, period;
    joint(const endless& a, const endless& b)
        : start(std::max(a.stem.size(), b.stem.size())), period(std::lcm(a.again.size(), b.again.size())) {}
};

endless atom_sequence(const setting& where, std::uint32_t atom) {
    endless s;
    for (std::uint32_t letter : where.prefix) s.stem.push_back(letter >> atom & 1);
    for (std::uint32_t letter : where.loop) s.again.push_back(letter >> atom & 1);
    return s;
}

endless not_sequence(endless a) {
    for (char& value : a.stem) value = !value;
    for (char& value : a.again) value = !value;
    return a;
}

endless or_sequence(const endless& a, const endless& b) {
    const joint both(a, b);
    endless s;
    for (std::size_t k = 0; k < both.start; ++k) s.stem.push_back(a.at(k) || b.at(k));
    for (std::size_t k = 0; k < both.period; ++k)
        s.again.push_back(a.at(both.start + k) || b.at(both.start + k));
    return s;
}

// (a and b) is not (not a or not b).
endless and_sequence(const endless& a, const endless& b) {
    return not_sequence(or_sequence(not_sequence(a), not_sequence(b)));
}

// Forward from position 0. Past both stems all that is still to come hangs on the phase of the parts and on
// the last value; when that pair comes a second time, what lay between the two comes again for ever.
endless since_sequence(const endless& a, const endless& b) {
    const joint both(a, b);
    std::vector<char> values;
    std::map<std::pair<std::size_t, bool>, std::size_t> met;
    bool last = false; // before position 0 there is no witness
    for (std::size_t k = 0;; ++k) {
        if (k >= both.start) {
            const auto [earlier, fresh] = met.try_emplace({(k - both.start) % both.period, last}, k);
            if (!fresh) {
                const auto cut = values.begin() + earlier->second;
                return {{values.begin(), cut}, {cut, values.end()}};
            }
        }
        last = b.at(k) || (a.at(k) && last);
        values.push_back(last);
    }
}

// Backward, lap by lap, from a far end behind which no witness has been seen. A lap that
// begins with the value that stood behind it would give itself again, so every lap before it
// is the same; the stem follows from it.
endless until_sequence(const endless& a, const endless& b) {
    const joint both(a, b);
    endless s{std::vector<char>(both.start), std::vector<char>(both.period)};
    bool next = false, behind;
    const auto step = [&](std::size_t k) { return next = b.at(k) || (a.at(k) && next); };
    do {
        behind = next;
        for (std::size_t k = both.period; k-- > 0;) s.again[k] = step(both.start + k);
    } while (next != behind);
    for (std::size_t k = both.start; k-- > 0;) s.stem[k] = step(k);
    return s;
}

} // namespace

meaning::meaning(const setting& where) {
    for (entry_fields e : where.entries) {
        switch (e.kind) {
        case ATOM: sequences.push_back(atom_sequence(where, e.left)); break;
        case NOT: sequences.push_back(not_sequence(sequences[e.left])); break;
        case OR: sequences.push_back(or_sequence(sequences[e.left], sequences[e.right])); break;
        case AND: sequences.push_back(and_sequence(sequences[e.left], sequences[e.right])); break;
        case SINCE: sequences.push_back(since_sequence(sequences[e.left], sequences[e.right])); break;
        case UNTIL: sequences.push_back(until_sequence(sequences[e.left], sequences[e.right])); break;
        }
    }
}

} // namespace second
