# What the tests of the command share: a copy of what the command needs, in which it can be built without
# disturbing anybody, a stand-in for rt, and what is expected of a call.
top=$(cd "$here/../.." && pwd)
built=${PROGRAM:-$top/target-tests/explain}
into=$(mktemp -d) # outside of the repository, in which rt wants no other crates
trap 'rm -rf "$into"' EXIT
mkdir -p "$into/bin" "$into/copy"
copy=$into/copy
tar -C "$top" --exclude='crates/*/out' -c explain tests/rattle.sh crates crates.txt samples |
    tar -C "$copy" -x
calls=$into/calls
fail() { echo "command: $*" >&2; exit 1; }

rt doc >"$into/guide"
# The stand-in for rt: it notes how it is called, speaks as rt does, and builds by copying what is built.
cat >"$into/bin/rt" <<STAND_IN
#!/bin/sh
[ "\$1" != doc ] || { cat "$into/guide"; exit; }
echo "\$*" >>"$calls"
for crate in schedule rules explain; do
    echo "rt: chose --jobs 2 for \$crate" && echo "library std: modules loaded=0 checked=0"
done >&2
[ ! -e "$into/refuse" ] || { echo "a fact that does not hold" >&2; exit 1; }
mkdir -p out && cp "$built" out/explain && out/explain
STAND_IN
chmod +x "$into/bin/rt"

# A path with the tools that Debian always has, and no rt; with the stand-in on it.
plain=$into/tools
mkdir "$plain"
for tool in bash cat cp dirname find mkdir readlink sed sha256sum sort tee uname xargs; do
    ln -s "$(command -v "$tool")" "$plain/$tool"
done
with_rt=$into/bin:$plain
# Where the processor is another one, the toolchain is needed to run the program too.
[ "$(uname -m)" = x86_64 ] || plain=$with_rt

# call STATUS WHAT COMMAND..: the command ends with that status. What it prints is in out and err.
call() {
    local status=0
    "${@:3}" >"$into/out" 2>"$into/err" || status=$?
    [ "$status" = "$1" ] || { cat "$into/err" >&2; fail "$2: status $status, not $1"; }
}

# prints FILE WHAT, says WORDS WHAT, silent WHAT: on standard output, on standard error, nothing there.
prints() { cmp -s "$1" "$into/out" || fail "$2: another output"; }
says() { grep -qF -- "$1" "$into/err" || { cat "$into/err" >&2; fail "$2: not said: $1"; }; }
silent() { [ ! -s "$into/err" ] || { cat "$into/err" >&2; fail "$1: something was said"; }; }
# one_line WORDS WHAT: nothing but this line was said.
one_line() { [ "$(cat "$into/err")" = "$1" ] || fail "$2: said '$(cat "$into/err")' and not '$1'"; }

# rt_called TIMES WHAT: so often, and always the same way.
rt_called() {
    local times=0
    [ ! -e "$calls" ] || times=$(grep -cx run "$calls")
    [ "$times" = "$1" ] || fail "$2: rt was called $times times, not $1"
    [ ! -e "$calls" ] || [ "$times" = "$(wc -l <"$calls")" ] || fail "$2: rt was called otherwise"
}
