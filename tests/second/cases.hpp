// Test cases as data, a line a case: reading them, printing them, and holding any program
// that offers the calls against them.
//
// A line is six fields with | between them; a line that begins with # says something to the reader.
//   schedule | name                    | prefix;loop;table | | | what it is
//   truth    | schedule entry position | work length       | answer |        | source, and why it is here
//   find     | schedule entry position | work length       | answer |        | ...
//   write    | schedule entry position | work, tree length | answer | words, or: as found | ...
//   check    | schedule entry position | words             | answer |        | ...
//   view     | schedule position       |                   | prefix or loop, first letter, count | | ...
//   explain  |                         | text              |        | output | ...
// An answer is number place verdict size. A schedule is a name from a line above, or the three lists
// themselves. Letters stand with commas, entries as kind,left,right with slashes, tree words as
// rule,atom,number with spaces, - for none. x*9 is x nine times, 1,0,0..9 ten words of rising number. A text
// is "pieces" in quotes with \n \r \t \\ \" \xNN, each perhaps *9.
#pragma once

#include "reference.hpp"

#include <filesystem>
#include <functional>

namespace second {

enum class call { truth, find, write, check, view, explain };

std::string name_of(call what);
std::string text_of(const answer& a);

struct test_case {
    call what = call::truth;
    std::string schedule; // as the line has it; empty when the lists themselves are to be printed
    std::vector<std::uint32_t> prefix, loop, table;
    std::size_t entry = 0, position = 0;
    std::size_t work = 0, room = 0;     // lengths of the lent buffers
    std::vector<std::uint32_t> tree;    // check: the tree
    answer expected;
    std::vector<std::uint32_t> written; // write: the words
    bool of_loop = false;               // view: which list, and which part of it
    std::size_t first = 0, count = 0;
    std::string text, output;           // explain
    std::string why;
    std::string where; // file and line

    bool operator==(const test_case&) const = default;
};

// Throws std::runtime_error that names file and line where a line cannot be read.
std::vector<test_case> read_cases(const std::filesystem::path& file);

// A case as a line of such a file, and a line with its lists in it as a case.
std::string line_of(const test_case& c);
test_case case_of(const std::string& line);

// The calls of a program. One that is not offered is left empty.
struct program {
    using lent = std::span<std::uint16_t>;
    std::function<answer(words, words, words, std::size_t, std::size_t, lent)> truth, find;
    std::function<answer(words, words, words, std::size_t, std::size_t, lent, std::span<std::uint32_t>)>
        write;
    std::function<answer(words, words, words, std::size_t, std::size_t, words)> check;
    std::function<words(words, words, std::size_t)> view;
    std::function<std::string(std::span<const std::uint8_t>)> explain;

    bool offers(call what) const;
};

// What the program answers, or leaves in its buffers, other than the case expects; empty if nothing. The
// buffers hold junk at first, made from `junk`, and lie between guards.
std::string difference(const test_case& c, const program& p, std::uint32_t junk);

} // namespace second
