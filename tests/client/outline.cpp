// outline < SAMPLE: why a schedule keeps or breaks its rule, as an outline in words: what is below a line,
// and further in, is why that line is so.
#include "because.hpp"
#include "sample.hpp"

namespace {

chickvessel::work_slice work;
chickvessel::tree_room room;
client::sample asked;

void print_refusal(const chickvessel::answer& a) {
    std::printf("refused: %.*s", int(a.name().size()), a.name().data());
    if (a.refused == chickvessel::refusal::no_valid_tree) std::printf(", at word %zu", a.place);
    std::printf("\n");
}

} // namespace

int main() {
    if (!client::read(stdin, asked)) {
        std::fputs("outline: this is no sample\n", stderr);
        return 2;
    }
    const chickvessel::question q = asked.question();
    const chickvessel::answer a = chickvessel::write(q, work, room);
    if (!a) {
        print_refusal(a); // an answer too
        return 0;
    }
    const std::span tree = std::span(room).first(a.size);
    for (const chickvessel::node& n : chickvessel::tree_view(q, tree)) {
        std::printf("%*s", int(2 * n.depth), "");
        client::because(n, stdout);
        std::printf("\n");
    }
    // What the editor was handed can be checked again at any time.
    if (const chickvessel::answer b = chickvessel::check(q, tree); !b || b.verdict != a.verdict) {
        print_refusal(b);
        return 1;
    }
    std::printf("%zu steps, checked\n", a.size);
    return 0;
}
