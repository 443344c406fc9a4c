// How much stack the text function takes.
#include "depth.hpp"

#include "library_text.hpp"

#include "painted.hpp"
#include "reference.hpp"
#include "tally.hpp"

#include <algorithm>
#include <vector>

namespace text {

namespace {

constexpr std::size_t FIBRE = 16384;

// Entry 31 is 31 times a kind over what is below it, down to an atom.
std::string chain(const std::string& kind, bool twice) {
    std::string text = "prefix=\nloop=1\nentry=0,0,0\n";
    for (int k = 1; k < 32; ++k) {
        const std::string part = std::to_string(k - 1);
        text += "entry=" + kind + "," + part + "," + (twice ? part : "0") + "\n";
    }
    return text + "ask=31,0\n";
}

} // namespace

std::size_t deepest() {
    stack::painted_stack on;
    std::vector<std::uint16_t> work(16384);
    std::vector<std::uint32_t> tree(4095);
    std::vector<std::uint8_t> out(OUT);
    std::size_t most = 0;
    for (const std::string& text : {chain("1", false), chain("2", true), chain("3", true)}) {
        const auto* bytes = reinterpret_cast<const std::uint8_t*>(text.data());
        std::size_t length = 0;
        most = std::max(most, on.depth_of([&] {
            length = chickvessel_explain(bytes, text.size(), work.data(), tree.data(), out.data());
        }));
        const std::string output(out.begin(), out.begin() + std::ptrdiff_t(length));
        if (output != second::explain({bytes, text.size()})) throw second::failure("depth: another output");
    }
    if (most > FIBRE) throw second::failure("depth: " + std::to_string(most) + " bytes of stack");
    return most;
}

} // namespace text
