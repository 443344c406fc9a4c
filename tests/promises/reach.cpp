// reach [ROOT]: what a reader of the public contracts has to read, and that it stands where a reader looks.
//   reach   From the contracts of the entry points below, names are followed to definitions in specs/ of all
//           crates, and on from those, by each file's own imports. The library's have a limit of lines.
//   room    What stands directly under a crate's specs/ is reached; what stands in specs/inside/ is not.
//   names   No public name is used twice.
// Prints what is reached, and each breach as `crate: name: what is wrong`; fails if there is one.
// ROOT is the folder that has crates/, by default the current one.
// Files are read by lines, as the formatter leaves them: what stands further in belongs to the line above it.
// A bound variable that has the name of a definition in scope counts as that definition.
#include <algorithm>
#include <filesystem>
#include <fstream>
#include <iostream>
#include <map>
#include <regex>
#include <set>
#include <sstream>
#include <stdexcept>
#include <vector>

namespace {

using names = std::vector<std::string>;

// The entry points: crate and public function.
const names LIBRARY = {
    "chickvessel:chickvessel_check", "chickvessel:chickvessel_truth", "chickvessel:chickvessel_find",
    "chickvessel:chickvessel_write", "wording:write", "checking:check", "finding:truth", "finding:find",
    "schedule:Schedule::new", "schedule:view", "schedule:letter", "schedule:bit",
};
const names TEXT_PROGRAM = {"explain_text:explain", "explain_text_c:chickvessel_explain",
                            "reading_c:chickvessel_read_text"};
constexpr std::size_t LIBRARY_LINES = 450; // the most that its contracts may reach

// No contract cites what this crate defines: its theorem `starred` is read by itself, with its definitions.
const std::string READ_BY_ITSELF = "examples";

// The names in a file, each with its address: a path from crates/ on, a colon, the name there.
// A module that is imported whole has the name `Module.` and the address `path:`.
using scope = std::map<std::string, std::string>;

struct definition {
    names cites;           // addresses, its own among them; while its file is read, all words of its text
    std::size_t lines = 0; // signature, equations, fields, constructors (a constructor itself has none)
    std::string cited_by;  // what reached it first; empty if nothing did
};

struct line {
    std::size_t indent;
    std::string text;
};

constexpr std::size_t NOWHERE = std::string::npos;
bool has(const std::string& text, const std::string& part) { return text.find(part) != NOWHERE; }
std::string crate_of(const std::string& address) { return address.substr(0, address.find_first_of("/:")); }
std::string name_of(const std::string& address) { return address.substr(address.find(':') + 1); }
void add(names& to, const names& more) { to.insert(to.end(), more.begin(), more.end()); }

// Without comments and blank lines.
std::vector<line> lines_of(const std::filesystem::path& file, const std::string& comment) {
    std::vector<line> found;
    std::ifstream in(file);
    for (std::string text; std::getline(in, text);) {
        text.erase(std::min((" " + text).find(" " + comment), text.size()));
        text.erase(text.find_last_not_of(' ') + 1);
        const std::size_t indent = text.find_first_not_of(' ');
        if (indent != NOWHERE) found.push_back({indent, text.substr(indent)});
    }
    return found;
}

// What stands between spaces, brackets and commas; an operator without the places of its arguments.
names words_of(std::string text) {
    static const std::regex places("◌");
    std::replace_if(text.begin(), text.end(), [](char c) { return has("(){},;", {c}); }, ' ');
    names words;
    std::istringstream in(std::regex_replace(text, places, ""));
    for (std::string word; in >> word;) words.push_back(word);
    return words;
}

// use MODULE.{a, b as c}, or use MODULE as M, or use MODULE, of modules of specs/: that of rules/specs/Low is
// Rattle.rules.specs.Low. What the language's library defines is no crate's here.
void import(scope& in, const std::string& text) {
    static const std::regex form(R"(use Rattle\.(\w+)(\.specs\.[^ {]+?)(?:\.\{(.*)\}| as ([^;]+))?;?)");
    std::smatch m;
    if (!has(text, ".specs.") || text.starts_with("use Rattle.std.")) return;
    if (!std::regex_match(text, m, form)) throw std::runtime_error("cannot read " + text);
    std::string path = m.str(1) + m.str(2);
    std::replace(path.begin(), path.end(), '.', '/');
    if (!m[3].matched) in[(m[4].matched ? m.str(4) : path.substr(path.rfind('/') + 1)) + "."] = path + ":";
    std::istringstream list(m.str(3));
    for (std::string part; std::getline(list, part, ',');)
        if (const names n = words_of(part); !n.empty()) in[n.back()] = path + ":" + n.front();
}

// A word is a name, a name of a module that was imported whole, or a name and a field of it.
names addresses(const scope& in, const names& words) {
    names found;
    for (const std::string& word : words) {
        const std::string module = word.substr(0, word.rfind('.') + 1); // empty if there is no dot
        const std::string name = word.substr(0, word.find('.'));
        if (in.contains(word)) found.push_back(in.at(word));
        else if (in.contains(module)) found.push_back(in.at(module) + word.substr(module.size()));
        else if (in.contains(name)) found.push_back(in.at(name));
    }
    return found;
}

struct repository {
    std::map<std::string, definition> defined; // by address
    std::map<std::string, names> contracts;    // what they cite, by `crate:function`: addresses
    std::map<std::string, names> laws, items;  // where a name is public: in *.antt, in src/
    std::set<std::string> types;               // of src/, with the variants of public ones: addresses
    int breaches = 0;

    explicit repository(const std::filesystem::path& crates) {
        const std::regex antt("([^/]*/specs/.*|[^/]*/proofs/[^/]*)[.]antt"), rt("([^/]*/src/.*)[.]rt");
        std::set<std::filesystem::path> files;
        for (const auto& f : std::filesystem::recursive_directory_iterator(crates)) files.insert(f.path());
        for (const auto& f : files) {
            const std::string name = f.lexically_relative(crates).generic_string();
            std::smatch m;
            if (std::regex_match(name, m, antt)) read_laws(m[1], lines_of(f, "--"));
            if (std::regex_match(name, m, rt)) read_source(m[1], lines_of(f, "//"));
        }
    }

    void read_laws(const std::string& path, const std::vector<line>& all) {
        static const std::regex form("((?:pub |abbrev |unfoldable )*)"
                                     "(?:(use|mod|module|mutual|record|data)(?: ([^ ]+).*)?|"
                                     R"(([^ (){}:]+)(?: \{[^}]*\})* :(?: .*)?))");
        scope in;
        names own, heads;            // its definitions; the words of heads of sections, for all that follow
        std::string kind;            // of the item being read: its keyword, if it has one
        std::size_t level = NOWHERE; // where the item stands
        for (auto [indent, text] : all) {
            std::smatch m;
            const bool begins = indent <= level && std::regex_match(text, m, form);
            if (indent <= level) kind = begins ? m.str(2) : "", level = indent; // begins nothing: an equation
            const bool defines = kind.empty() || kind == "record" || kind == "data";
            if (begins && defines) {
                const std::string name = words_of(m.str(3) + m.str(4)).at(0);
                own.push_back(in[name] = path + ":" + name);
                defined[own.back()].cites = heads;
                if (has(m[1], "pub")) laws[name].push_back(path);
            }
            if (kind == "use") import(in, text);
            if (kind == "module") add(heads, words_of(text));
            if (kind == "mutual" || (kind == "module" && text.ends_with("where"))) level = NOWHERE;
            if (!defines) continue;
            if (own.empty()) throw std::runtime_error(path + ": cannot read " + text);
            defined[own.back()].lines += 1;
            if (!kind.empty() && indent == level + 2) { // a field or a constructor: its name cites nothing
                const std::size_t colon = std::min(text.find(" :"), text.size());
                for (const std::string& name : words_of(text.substr(0, colon)))
                    if (kind == "data") defined[in[name] = path + ":" + name].cites.push_back(own.back());
                text.erase(0, colon);
            }
            add(defined[own.back()].cites, words_of(text));
        }
        for (const std::string& address : own) defined[address].cites = addresses(in, defined[address].cites);
    }

    void read_source(const std::string& path, const std::vector<line>& all) {
        static const std::regex form(R"(pub (?:extern "C" )?(fn|struct|enum|const) (\w+).*)");
        scope in;
        std::string owner; // the type whose methods are read
        for (auto l = all.begin(); l != all.end(); ++l) {
            if (l->text.starts_with("ghost ")) import(in, l->text.substr(6));
            if (l->indent == 0) owner = l->text.starts_with("impl ") ? words_of(l->text).at(1) + "::" : "";
            std::smatch m;
            if (!std::regex_match(l->text, m, form)) continue;
            const std::string kind = m[1], name = m[2];
            items[name].push_back(path);
            if (kind == "struct" || kind == "enum") types.insert(path + ":" + name);
            for (auto v = l + 1; kind == "enum" && v != all.end() && v->indent > l->indent; ++v)
                if (const names words = words_of(v->text); v->indent == l->indent + 4 && !words.empty())
                    types.insert(path + ":" + words[0]);
            std::string head; // all before a body, whose bracket ends a line that stands no further in
            for (auto h = l; h != all.end() && (h->indent > l->indent || !h->text.ends_with("{")); ++h)
                head += h->text + " ";
            static const std::regex clauses(R"(\b(requires|ensures)( \w+)? \{.*)");
            if (kind != "fn" || !std::regex_search(head, m, clauses)) continue;
            contracts[crate_of(path) + ":" + owner + name] = addresses(in, words_of(m.str()));
        }
    }

    // Follows contracts to what nothing reached before, and says how many lines that has.
    std::size_t reach(const std::string& whose, const names& entry_points) {
        std::vector<std::pair<std::string, std::string>> open; // an address, and what cites it
        for (const std::string& f : entry_points) {
            if (!contracts.contains(f)) breach(f, "an entry point, but no public function with a contract");
            for (const std::string& address : contracts[f]) open.push_back({address, name_of(f)});
        }
        std::size_t definitions = 0, lines = 0, declared = 0;
        while (!open.empty()) {
            auto [address, by] = open.back();
            open.pop_back();
            // A type that src/ declares, or a variant of one: the type is reached, but no line is counted.
            const bool in_source = has(address, "/specs/declared/");
            if (in_source) address.erase(std::min(address.find("/TheVariants:"), address.find(':')));
            definition& d = defined[address];
            if (d.cites.empty() && !in_source) breach(address, "cited by " + by + ", but not there");
            if (!d.cited_by.empty()) continue;
            d.cited_by = by;
            definitions += d.lines > 0, lines += d.lines, declared += in_source;
            for (const std::string& further : d.cites) open.push_back({further, name_of(address)});
        }
        std::cout << "reach: " << whose << ": " << definitions << " definitions, " << lines << " lines, and "
                  << declared << " types of src/\n";
        return lines;
    }

    void room() {
        for (const auto& [address, d] : defined) {
            if (!has(address, "/specs/") || d.lines == 0 || crate_of(address) == READ_BY_ITSELF) continue;
            const bool inside = has(address, "/specs/inside/"), reached = !d.cited_by.empty();
            if (inside && reached) breach(address, "in specs/inside/, but reached: cited by " + d.cited_by);
            if (!inside && !reached) breach(address, "in specs/, but no entry point reaches it");
        }
    }

    // A function may have the name of what it computes; a type or a variant may not have a definition's.
    void twice() {
        for (const auto& all : {laws, items})
            for (const auto& [name, paths] : all)
                for (std::size_t k = 1; k < paths.size(); ++k)
                    breach(paths[k] + ":" + name, "public in " + paths[k] + " and in " + paths[0]);
        for (const std::string& type : types)
            if (const auto law = laws.find(name_of(type)); law != laws.end())
                breach(type, "a type or a variant, but defined in " + law->second[0]);
    }

    void breach(const std::string& address, const std::string& what) {
        std::cerr << crate_of(address) << ": " << name_of(address) << ": " << what << "\n";
        ++breaches;
    }
};

} // namespace

int main(int argc, char** argv) try {
    repository r(std::filesystem::path(argc > 1 ? argv[1] : ".") / "crates");
    if (r.reach("the library", LIBRARY) > LIBRARY_LINES)
        r.breach("library:lines", "above the limit, " + std::to_string(LIBRARY_LINES));
    r.reach("the text program adds", TEXT_PROGRAM);
    r.room(), r.twice();
    if (r.breaches > 0) throw std::runtime_error(std::to_string(r.breaches) + " breaches");
} catch (const std::exception& e) {
    std::cerr << "reach: " << e.what() << "\n";
    return 1;
}
