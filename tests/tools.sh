# What the tests are built and run with, from the top of the repository: CXX, a compiler for x86-64; RUN, what
# a program of it is run with; RUN_RT, what a program of rt is. Rattle's archives are x86-64 on every machine,
# so the programs that link them are too; where the processor is another one, both go through an emulator. RUN
# is words, and not an array, since an array is not handed on to what is called.

# need COMMAND PACKAGE: installs a Debian package if its command is missing.
need() {
    command -v "$1" >/dev/null && return
    echo "tools: installing $2" >&2
    local as_root=()
    [ "$(id -u)" = 0 ] || as_root=(sudo)
    "${as_root[@]}" apt-get update -qq >/dev/null
    "${as_root[@]}" apt-get install -y -qq "$2" >/dev/null
}

. tests/rattle.sh

need cmake cmake
need make make
need pkg-config pkg-config
[ "${#emulator[@]}" = 0 ] || need "${emulator[0]}" qemu-user
if [ "$(uname -m)" = x86_64 ]; then
    need g++ g++
    CXX=g++
    RUN="${emulator[*]}"
else
    need x86_64-linux-gnu-g++ g++-x86-64-linux-gnu
    CXX=x86_64-linux-gnu-g++
    libc=$("$CXX" -print-file-name=libc.so.6)
    RUN="${emulator[*]} -L $(dirname "$(dirname "$libc")")"
fi
