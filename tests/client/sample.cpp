// Reading a sample line by line.
#include "sample.hpp"

#include <cstdlib>
#include <cstring>
#include <span>

namespace client {

namespace {

// The numbers of a list with commas between them; false if there is no room for
// them or something else stands there.
bool numbers(const char* text, std::span<std::uint32_t> into, std::size_t& count) {
    for (count = 0; *text != '\n'; ++count) {
        char* end = nullptr;
        if (count == into.size()) return false;
        into[count] = std::uint32_t(std::strtoul(text, &end, 10));
        if (end == text || (*end != ',' && *end != '\n')) return false;
        text = *end == ',' ? end + 1 : end;
    }
    return true;
}

// What stands behind a line's name, if it has that name.
const char* after(const char* name, const char* line) {
    const std::size_t length = std::strlen(name);
    return std::strncmp(line, name, length) == 0 ? line + length : nullptr;
}

} // namespace

bool read(std::FILE* from, sample& into) {
    char line[1024];
    std::uint32_t fields[3];
    std::size_t count = 0;
    while (std::fgets(line, sizeof line, from) != nullptr) {
        if (const char* list = after("prefix=", line)) {
            if (!numbers(list, into.prefix, into.prefix_length)) return false;
        } else if (const char* again = after("loop=", line)) {
            if (!numbers(again, into.loop, into.loop_length)) return false;
        } else if (const char* entry = after("entry=", line)) {
            if (!numbers(entry, fields, count) || count != 3) return false;
            if (into.table_length == chickvessel::max_entries) return false;
            into.table[into.table_length++] = fields[0] << 16 | fields[1] << 8 | fields[2];
        } else if (const char* ask = after("ask=", line)) {
            if (!numbers(ask, fields, count) || count != 2) return false;
            into.entry = fields[0], into.position = fields[1];
            return true;
        }
    }
    return false;
}

} // namespace client
