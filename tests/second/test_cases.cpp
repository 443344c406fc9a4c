// The lines of the case files, each run with buffers full of different junk.
#include "parts.hpp"

#include "judges.hpp"

#include <algorithm>

namespace second {

namespace {

// The number after "refused=", or 0.
std::uint32_t printed_refusal(const std::string& output) {
    return output.starts_with("refused=") ? std::uint32_t(std::stoul(output.substr(8))) : 0;
}

// 01 names one size above the limit, which no answer shows: 4,369.
void size_above_the_limit() {
    test_case c = case_of("find | ;1*16;0,0,0/0,1,0/5,0,1/5,0,2/5,0,3 4 0 | 16384 | 11 0 0 0 | | 01");
    if (exact_size(c) != 4369)
        throw failure("least size " + std::to_string(exact_size(c)) + ", not 4369\n" + line_of(c));
}

} // namespace

std::string test_cases(const std::filesystem::path& folder) {
    tally t("case files", {"lines", "truth", "find", "write", "check", "view", "explain"},
            {1, 2, 3, 4, 5, 6, 7, 8, 9, 10, 11, 12, 13, 14},
            {1, 2, 3, 4, 5, 6, 7, 8, 9, 10, 11, 12, 13, 14, 15, 16});
    const program reference{truth, find, write, check, view, explain};
    std::vector<std::filesystem::path> files;
    for (const auto& file : std::filesystem::directory_iterator(folder)) files.push_back(file.path());
    std::sort(files.begin(), files.end());
    for (const auto& file : files) {
        for (const test_case& c : read_cases(file)) {
            for (std::uint32_t junk : {0u, 0xabcdu, 0xffffffffu})
                if (const std::string d = difference(c, reference, junk); !d.empty())
                    throw failure(c.where + ": " + d + "\n" + line_of(c));
            t.met("lines");
            t.met(name_of(c.what));
            t.met_refusal(c.what == call::explain ? printed_refusal(c.output) : c.expected.number);
            if (!c.written.empty()) t.met_root(c.written[0]);
        }
    }
    size_above_the_limit();
    return t.line();
}

} // namespace second
