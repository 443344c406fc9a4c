// Random calls of truth, find and write: each question drawn, then changed in every way, with buffers of all
// lengths, against the reference's answers.
#include "comparison.hpp"

#include "agreement.hpp"
#include "call_shapes.hpp"
#include "changes.hpp"
#include "draws.hpp"
#include "hold.hpp"
#include "lengths.hpp"
#include "shapes.hpp"
#include "special.hpp"
#include "tally.hpp"

namespace compare {

namespace {

using namespace second;

constexpr std::uint64_t LEAST_CALLS = 20000; // of each

// On chains of and(k - 1, k - 2) the heights cost more than they cost a check: each row of
// the filling asks for them again.
constexpr std::size_t DRAWS = 160, DRAWS_OF_AND_CHAINS = 4, DRAWS_OF_SPECIAL = 200;

std::vector<call_shape> shapes() {
    std::vector<call_shape> all = shapes_that_ask(share_of(DRAWS), share_of(DRAWS_OF_AND_CHAINS));
    for (const call_shape& special : special_shapes(share_of(DRAWS_OF_SPECIAL))) all.push_back(special);
    return all;
}

// What the three calls have met.
class counts {
public:
    counts() {
        std::vector<std::string> all = {"nothing changed"}, of_write = SPECIALS;
        for (const change& made : question_changes()) all.push_back(made.name);
        for (const length& work : work_lengths()) all.push_back(work.name);
        for (const length& room : room_lengths(1)) of_write.push_back(room.name);
        of_write.insert(of_write.end(), {"all four alike", "too large alike", "refused alike"});
        of_write.insert(of_write.end(), all.begin(), all.end());
        tallies = {tally("truth", all, {1, 2, 3, 4, 5, 6, 7, 8}, {}),
                   tally("find", all, {1, 2, 3, 4, 5, 6, 7, 8, 11}, {}),
                   tally("write", of_write, {1, 2, 3, 4, 5, 6, 7, 8, 11, 12},
                         {1, 2, 3, 4, 5, 6, 7, 8, 9, 10, 11, 12, 13, 14, 15, 16})};
    }

    void met(call what, const std::string& name) { tallies[int(what)].met(name); }

    void met_call(const test_case& c) {
        ++calls[int(c.what)];
        tally& t = tallies[int(c.what)];
        t.met("calls"), t.met_refusal(c.expected.number);
        if (!c.written.empty()) t.met_root(c.written[0]);
    }

    std::string lines() const {
        std::string all;
        for (int k = 0; k < 3; ++k) {
            if (calls[k] < share_of(LEAST_CALLS))
                throw failure(name_of(call(k)) + ": only " + std::to_string(calls[k]) + " calls");
            all += (k > 0 ? "\n" : "") + tallies[k].line();
        }
        return all;
    }

private:
    std::vector<tally> tallies; // in the order of second::call
    std::uint64_t calls[3] = {};
};

// One question, with the reference to answer it.
class question {
public:
    question(const test_case& asked, random_source& r, counts& met)
        : asked(asked), reference(asked.prefix, asked.loop, asked.table), r(r), met(met) {
        std::vector<std::uint16_t> work(MIN_WORK);
        found = reference.find(asked.entry, asked.position, work);
        // Where there is no tree, as if it were just too large.
        rooms = room_lengths(found.size != 0 ? found.size : MAX_TREE + 1);
    }

    // All lengths of each buffer.
    void with_all_lengths() {
        for (const length& work : works)
            for (call what : CALLS) compare(what, work, r.pick(rooms));
        for (const length& room : rooms)
            compare(call::write, works[r.between(ENOUGH, works.size() - 1)], room);
    }

    // Any lengths, the work slice mostly long enough.
    void with_some_lengths() {
        for (call what : CALLS) {
            const length& work = works[r.between(r.one_in(8) ? 0 : ENOUGH, works.size() - 1)];
            compare(what, work, r.pick(rooms));
        }
    }

    // What the calls have in common, and what is special about the least tree.
    void with_one_another() {
        met.met(call::write, agreement(asked));
        if (found.number != 0 && found.number != 11) return;
        for (const std::string& special : specials_of(asked)) met.met(call::write, special);
    }

private:
    static constexpr call CALLS[] = {call::truth, call::find, call::write};

    void compare(call what, const length& work, const length& room) {
        test_case c = asked;
        c.what = what, c.work = work.numbers, c.room = what == call::write ? room.numbers : 0;
        c.where = name_of(what) + " of " + asked.where;
        answer_case(c, reference);
        hold(c, std::uint32_t(r.next()));
        met.met_call(c), met.met(what, work.name), met.met(what, asked.why);
        if (what == call::write) met.met(what, room.name);
    }

    const test_case& asked;
    engine reference;
    random_source& r;
    counts& met;
    answer found;
    const std::vector<length> works = work_lengths();
    std::vector<length> rooms;
};

// The question of a case, which says in `why` what was changed in it.
test_case question_of(const test_case& drawn, const std::string& shape, const std::string& changed) {
    test_case c = drawn;
    c.what = call::write, c.tree.clear(), c.written.clear();
    c.why = changed, c.where = "shape " + shape + ", " + changed;
    return c;
}

} // namespace

std::string lent_calls(random_source r) {
    counts met;
    for (const call_shape& shape : shapes())
        for (std::size_t k = 0; k < shape.draws; ++k) {
            random_source own(r.next()); // a source a draw: none depends on those before it
            const test_case drawn = shape.draw(own);
            const test_case as_drawn = question_of(drawn, shape.name, "nothing changed");
            question q(as_drawn, own, met);
            q.with_all_lengths(), q.with_one_another();
            for (const change& made : question_changes()) {
                test_case c = question_of(drawn, shape.name, made.name);
                if (made.make(c, own)) question(c, own, met).with_some_lengths();
            }
        }
    return met.lines();
}

} // namespace compare
