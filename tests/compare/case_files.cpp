// The case files against the library: the same lines that hold the second program to the document.
#include "comparison.hpp"

#include "hold.hpp"
#include "tally.hpp"

namespace compare {

std::string case_files(const std::filesystem::path& folder) {
    second::tally t("case files", {"lines"}, {}, {});
    // In the same order everywhere.
    const std::set<std::filesystem::path> files(std::filesystem::directory_iterator(folder), {});
    for (const auto& file : files)
        for (const second::test_case& c : second::read_cases(file)) {
            if (!offers(c.what)) continue;
            for (std::uint32_t junk : {0u, 0xabcdu, 0xffffffffu}) hold(c, junk);
            t.met("lines");
            t.met(name_of(c.what));
            t.met_refusal(c.expected.number);
        }
    return t.line();
}

} // namespace compare
