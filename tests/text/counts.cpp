// Counting by part, by output, by the line of refusal 13, by trap.
#include "counts.hpp"

#include "draws.hpp"
#include "traps.hpp"

namespace text {

namespace {

// At least so many a run, half of them damaged.
constexpr std::size_t LEAST_TEXTS = 20000;

std::vector<std::string> trap_names() {
    std::vector<std::string> names;
    for (const trap& t : all_traps()) names.push_back(t.name);
    return names;
}

std::string line_class(std::size_t line) {
    if (line < 10) return "line " + std::to_string(line);
    return line < 40 ? "lines 10 to 39" : line < 682 ? "lines 40 to 681" : "line " + std::to_string(line);
}

std::string size_class(std::size_t size) {
    if (size < 10) return "trees of 1 to 9";
    return size < 100 ? "trees of 10 to 99" : size < 4095 ? "trees of 100 to 4094" : "trees of 4095";
}

std::size_t number_behind(const std::string& output, const std::string& name) {
    return std::stoul(output.substr(output.find(name) + name.size()));
}

} // namespace

counts::counts()
    : texts("texts",
            {"case files", "sound", "damaged", "holds", "violated", "trees of 1 to 9", "trees of 10 to 99",
             "trees of 100 to 4094", "trees of 4095", "no byte", "8192 bytes", "8193 bytes"},
            {1, 2, 3, 4, 5, 6, 7, 11, 13, 14}, {1, 2, 3, 4, 5, 6, 7, 8, 9, 10, 11, 12, 13, 14, 15, 16}),
      wrong_lines("refusal 13 by line",
                  {"line 1", "line 2", "line 3", "line 4", "line 5", "line 6", "line 7", "line 8",
                   "lines 10 to 39", "line 682", "line 683"},
                  {}, {}),
      traps("traps", trap_names(), {}, {}) {}

void counts::text(const std::string& part, const std::string& text, const std::string& output) {
    texts.met(part);
    sound += part == "sound", damaged += part == "damaged";
    if (text.empty()) texts.met("no byte");
    if (text.size() == 8192 || text.size() == 8193) texts.met(std::to_string(text.size()) + " bytes");
    if (output.starts_with("refused=")) {
        const std::size_t number = number_behind(output, "refused=");
        texts.met_refusal(std::uint32_t(number));
        if (number == 13) wrong_lines.met(line_class(number_behind(output, "line=")));
        return;
    }
    texts.met(output.starts_with("verdict=holds\n") ? "holds" : "violated");
    texts.met(size_class(number_behind(output, "size=")));
    texts.met_root(std::uint32_t(number_behind(output, "node=") << 24));
}

std::string counts::lines() const {
    const std::size_t least = second::share_of(LEAST_TEXTS);
    if (sound + damaged < least || 2 * damaged < least)
        throw second::failure("texts: only " + std::to_string(sound) + " sound and " +
                              std::to_string(damaged) + " damaged");
    return texts.line() + "\n" + wrong_lines.line() + "\n" + traps.line();
}

} // namespace text
