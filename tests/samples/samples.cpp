// samples NAME.txt..: the tree in NAME.answer, beside each text, is a tree that check accepts for the text's
// question, with the answer's verdict.
#include "library.hpp"

#include <fstream>
#include <iostream>
#include <sstream>
#include <stdexcept>

namespace {

using numbers = std::vector<std::uint32_t>;

struct question {
    numbers prefix, loop, table;
    std::size_t entry = 0, position = 0;
};

struct answer {
    std::uint32_t verdict = 0; // 0 in a refusal
    numbers tree;
};

numbers numbers_of(const std::string& list) {
    numbers found;
    std::istringstream in(list);
    for (std::string number; std::getline(in, number, ',');)
        found.push_back(std::uint32_t(std::stoul(number)));
    return found;
}

// Calls take(name, value) for each line name=value of a file.
template <class Take> void lines_of(const std::string& file, Take take) {
    std::ifstream in(file);
    if (!in) throw std::runtime_error("no file " + file);
    for (std::string line; std::getline(in, line);)
        take(line.substr(0, line.find('=')), line.substr(line.find('=') + 1));
}

question question_of(const std::string& file) {
    question q;
    lines_of(file, [&](const std::string& name, const std::string& value) {
        const numbers n = numbers_of(value);
        if (name == "prefix") q.prefix = n;
        if (name == "loop") q.loop = n;
        if (name == "entry") q.table.push_back(n.at(0) * 65536 + n.at(1) * 256 + n.at(2));
        if (name == "ask") q.entry = n.at(0), q.position = n.at(1);
    });
    return q;
}

answer answer_of(const std::string& file) {
    answer a;
    lines_of(file, [&](const std::string& name, const std::string& value) {
        if (name == "verdict") a.verdict = value == "holds" ? second::HOLDS : second::VIOLATED;
        if (name == "node") {
            const numbers n = numbers_of(value);
            a.tree.push_back(second::word_of({n.at(0), n.at(1), n.at(2)}));
        }
    });
    return a;
}

} // namespace

int main(int argc, char** argv) try {
    int accepted = 0;
    for (int k = 1; k < argc; ++k) {
        const std::string text = argv[k];
        const answer a = answer_of(text.substr(0, text.rfind('.')) + ".answer");
        if (a.verdict == 0) continue;
        const question q = question_of(text);
        const second::answer checked = library::check(q.prefix, q.loop, q.table, q.entry, q.position, a.tree);
        if (checked != second::answer{0, 0, a.verdict, 0})
            throw std::runtime_error(text + ": check says " + std::to_string(checked.number) + ", place " +
                                     std::to_string(checked.place));
        ++accepted;
    }
    std::cout << "samples: check accepts " << accepted << " trees\n";
    return accepted > 0 ? 0 : 1;
} catch (const std::exception& e) {
    std::cerr << "samples: " << e.what() << "\n";
    return 1;
}
