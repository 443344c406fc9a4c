// The deep questions, and random ones, asked of a call that is lent buffers.
#include "deep.hpp"

#include "draws.hpp"
#include "shapes.hpp"

namespace stack {

using namespace second;

std::vector<group> deep_lent_calls(call what) {
    std::vector<group> groups = deep_questions();
    for (const char* shape : {"full", "demanding", "heights-five", "size-by-halving", "size-by-lists",
                              "lengths", "several-wrong"})
        groups.push_back(random_group(shape, share_of(100)));
    for (group& g : groups)
        for (test_case& c : g.calls) {
            if (c.what == call::check) c.work = MIN_WORK; // several-wrong has checks too
            c.what = what, c.tree.clear(), c.written.clear();
            c.room = what == call::write ? MAX_TREE : 0;
            answer_case(c);
        }
    return groups;
}

} // namespace stack
