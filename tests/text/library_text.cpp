// Lending buffers, and looking at what is left in them.
#include "library_text.hpp"

#include "rules.hpp"
#include "tally.hpp"

#include <algorithm>
#include <cstdio>
#include <cstring>

namespace text {

namespace {

using namespace second;

// A buffer full of junk, with a guard before and behind it.
template <class Number> class lent {
public:
    lent(std::size_t numbers, std::uint64_t seed) : size(numbers), all(numbers + 2 * GUARD) {
        random_source junk(seed);
        for (Number& n : all) n = Number(junk.next());
        found = all;
    }

    Number* data() { return all.data() + GUARD; }
    std::span<const Number> now() const { return std::span(all).subspan(GUARD, size); }

    // Whether everything from a number on is as found, guards included.
    bool as_found_from(std::size_t first) const {
        const auto from = std::ptrdiff_t(GUARD + first);
        return std::equal(all.begin(), all.begin() + GUARD, found.begin()) &&
               std::equal(all.begin() + from, all.end(), found.begin() + from);
    }

private:
    static constexpr std::size_t GUARD = 64;
    std::size_t size;
    std::vector<Number> all, found;
};

// The words of the node lines of an output.
std::vector<std::uint32_t> tree_of(const std::string& output) {
    std::vector<std::uint32_t> tree;
    for (std::size_t at = output.find("node="); at != output.npos; at = output.find("node=", at + 1)) {
        unsigned rule = 0, atom = 0, number = 0;
        std::sscanf(output.c_str() + at, "node=%u,%u,%u", &rule, &atom, &number);
        tree.push_back(word_of({rule, atom, number}));
    }
    return tree;
}

} // namespace

void hold(const std::string& text, const std::string& right, random_source& r) {
    lent<std::uint16_t> work(MIN_WORK, r.next());
    lent<std::uint32_t> tree(MAX_TREE, r.next());
    lent<std::uint8_t> out(OUT, r.next());
    // A copy of the text's own length, so that a memory checker sees a byte read
    // past it. No text is a null pointer.
    std::vector<std::uint8_t> bytes(text.begin(), text.end());
    const std::vector<std::uint8_t> given = bytes;
    const std::size_t size = chickvessel_explain(bytes.empty() ? nullptr : bytes.data(), bytes.size(),
                                                 work.data(), tree.data(), out.data());

    const auto insist = [&](bool as_should, const std::string& what) {
        if (!as_should) throw failure("the text function " + what);
    };
    insist(size <= OUT, "says that its output is longer than the buffer");
    const std::string output(out.now().begin(), out.now().begin() + std::ptrdiff_t(size));
    insist(output == right, "prints\n" + output.substr(0, 200));
    insist(bytes == given, "writes into its text");
    insist(out.as_found_from(size), "writes behind its output");
    insist(work.as_found_from(MIN_WORK) && tree.as_found_from(MAX_TREE),
           "writes outside the buffers that it is lent");

    // 01: 1 to 8 leave both as found; after success and 11 work is 0; success writes the tree's words, 11
    // none. 01 is silent about 13 and 14, which are the text's; the contract has both as found.
    if (right.starts_with("refused=") && right != "refused=11\n") {
        insist(work.as_found_from(0), "changes work in a refusal");
        insist(tree.as_found_from(0), "changes tree in a refusal");
        return;
    }
    insist(std::ranges::all_of(work.now(), [](std::uint16_t n) { return n == 0; }),
           "leaves work other than 0");
    const std::vector<std::uint32_t> words = tree_of(right);
    insist(std::equal(words.begin(), words.end(), tree.now().begin()),
           "leaves other words in tree than it prints");
    insist(tree.as_found_from(words.size()), "writes behind the tree's words");
}

} // namespace text
