# What the tests of docs/TEXT.md share: its blocks, its tables, and the program that is asked. EXPLAIN is the
# command that runs it, PAGE the page.
: "${EXPLAIN:?the command that runs the text program}"
top=$(cd "$(dirname "${BASH_SOURCE[0]}")/../.." && pwd)
page=${PAGE:-$top/docs/TEXT.md}
made=$(mktemp -d)
trap 'rm -rf "$made"' EXIT
fail() { echo "page: $*" >&2; exit 1; }

# Blocks: what stands between two fences, as files 01, 02 and so on. The first one is the first text.
awk -v into="$made" '
    /^```/ { inside = !inside; if (inside) file = sprintf("%s/%02d", into, ++n); next }
    inside { print >file }' "$page"
first=$made/01
[ -s "$first" ] || fail "no block on the page"

# rows HEAD LEAST: the rows of the table whose head begins with HEAD, at least so many; a | between cells.
rows() {
    awk -v head="| $1 |" -v least="$2" '
        index($0, head) == 1 { here = 1; getline; next }
        here && !/^[|]/ { exit }
        here { gsub(/^[|] *| *[|]$/, ""); gsub(/ *[|] */, "|"); print; n++ }
        END { exit n < least }' "$page" || fail "fewer than $2 rows under '$1'"
}

# plain CELL: without the marks of code.
plain() { tr -d '`' <<<"$1"; }

# answer: the program's whole answer to standard input. It must end with status 0, for a refusal too.
answer() { $EXPLAIN 2>/dev/null || fail "the program ends with status $?"; }

# begins: the first line of it. The rest is not thrown away before it is written.
begins() { answer >"$made/answer" && head -n 1 "$made/answer"; }

# answers WORDS WHAT: the answer to standard input, as words of one line, is this one.
answers() {
    local got
    got=$(answer | xargs)
    [ "$got" = "$1" ] || fail "$2: the answer is not '$1' but '$(cut -c1-60 <<<"$got")'"
}
