// explain: the text program of the reference, from standard input to standard output.
#include "reference.hpp"

#include <cstdio>

int main() {
    // One byte more than may be there shows that there are too many. An error of reading counts as the end.
    std::vector<std::uint8_t> text(second::MAX_TEXT + 1);
    text.resize(std::fread(text.data(), 1, text.size(), stdin));
    const std::string out = second::explain(text);
    return std::fwrite(out.data(), 1, out.size(), stdout) == out.size() && std::fflush(stdout) == 0 ? 0 : 1;
}
