// text CASES [SEED [FOLDER COUNT]]: the text function of the proved program against the second program, byte
// for byte. CASES is the folder of the case files; into FOLDER go at least COUNT of the texts, as N.in, with
// the right outputs, N.out, to be put through the program itself.
#include "counts.hpp"
#include "depth.hpp"
#include "library_text.hpp"
#include "sources.hpp"

#include "cases.hpp"
#include "draws.hpp"

#include <fstream>
#include <iostream>

namespace {

using namespace second;

constexpr std::size_t SOUND = 12000, TRAPPED = 100, DAMAGED = 6000; // TRAPPED for each trap

std::string right_output(const std::string& text) {
    return explain({reinterpret_cast<const std::uint8_t*>(text.data()), text.size()});
}

std::string shown(const std::string& text) {
    test_case c;
    c.what = call::explain, c.text = text, c.output = right_output(text);
    return "the text, as a line of a case file:\n" + line_of(c);
}

// Texts kept for the program.
class kept {
public:
    kept(std::string folder, std::size_t count) : folder(std::move(folder)), wanted(count) {}

    // Keeps every so many-th of what is offered, of each part of the run.
    void offer(const std::string& text, const std::string& output, std::size_t every) {
        if (folder.empty() || offered++ % every != 0) return;
        std::ofstream(folder + "/" + std::to_string(count) + ".in", std::ios::binary) << text;
        std::ofstream(folder + "/" + std::to_string(count++) + ".out", std::ios::binary) << output;
    }

    void insist() const {
        if (!folder.empty() && count < wanted)
            throw failure("text: only " + std::to_string(count) + " texts for the program");
    }

private:
    std::string folder;
    std::size_t wanted, count = 0, offered = 0;
};

// Holds the text function against the second program, and gives the output.
std::string held(const std::string& text, random_source& r, const std::string& name) try {
    const std::string right = right_output(text);
    text::hold(text, right, r);
    return right;
} catch (const failure& f) {
    throw failure(name + ": " + f.what() + "\n" + shown(text));
}

// What a trap must be answered by construction, which the second program has to meet too.
bool foreseen(const text::trapped& t, const std::string& output) {
    if (t.number == 0) return !output.starts_with("refused=13\n") && output != "refused=14\n";
    return output == "refused=" + std::to_string(t.number) + "\n" +
                         (t.number == 13 ? "line=" + std::to_string(t.line) + "\n" : "");
}

void case_texts(const std::filesystem::path& folder, random_source& r, text::counts& met) {
    for (const auto& file : std::filesystem::directory_iterator(folder))
        for (const test_case& c : read_cases(file.path())) {
            if (c.what != call::explain) continue;
            if (held(c.text, r, c.where) != c.output)
                throw failure(c.where + ": the second program prints something else");
            met.text("case files", c.text, c.output);
        }
}

void trapped_texts(random_source& r, text::counts& met, kept& k) {
    for (const text::trap& trap : text::all_traps())
        for (std::size_t n = 0; n < share_of(TRAPPED); ++n) {
            random_source own(r.next());
            const text::lines lines = text::small_lines(own);
            const text::trapped t = trap.make(lines, own);
            const std::string output = held(t.text, own, trap.name);
            if (!foreseen(t, output))
                throw failure(trap.name + ": not what the trap foresees: " + output.substr(0, 60) + "\n" +
                              shown(t.text));
            met.text("damaged", t.text, output), met.trap(trap.name);
            k.offer(t.text, output, share_of(TRAPPED / 2)); // two of each trap
        }
}

} // namespace

int main(int argc, char** argv) try {
    if (argc < 2 || argc > 5 || argc == 4) {
        std::cerr << "text CASES [SEED [FOLDER COUNT]]\n";
        return 2;
    }
    const std::uint64_t seed = argc > 2 ? std::stoull(argv[2]) : 1;
    random_source r(seed);
    kept k(argc > 3 ? argv[3] : "", argc > 4 ? std::stoull(argv[4]) : 0);
    text::counts met;
    std::cout << "seed " << seed << share_said() << std::endl;
    case_texts(argv[1], r, met);
    trapped_texts(r, met, k);
    for (std::size_t n = 0; n < share_of(SOUND); ++n) {
        random_source own(r.next());
        const std::string text = text::sound_text(n, own), output = held(text, own, "sound");
        if (output.starts_with("refused=13") || output == "refused=14\n")
            throw failure("sound: refused by its lines\n" + shown(text));
        met.text("sound", text, output), k.offer(text, output, share_of(101));
    }
    for (std::size_t n = 0; n < share_of(DAMAGED); ++n) {
        random_source own(r.next());
        const std::string text = text::damaged_text(own), output = held(text, own, "damaged at random");
        met.text("damaged", text, output), k.offer(text, output, share_of(47));
    }
    k.insist();
    std::cout << met.lines() << "\nstack of the text function: " << text::deepest()
              << " bytes\ntexts: no difference\n";
} catch (const std::exception& e) {
    std::cout.flush();
    std::cerr << "texts: FAILED\n" << e.what() << "\n";
    return 1;
}
