# What a program that rt linked is run with: RUN_RT. Such programs are x86-64 and bring no C library: the kit
# has it, with its loader. Where the processor is another one, both go through an emulator, Debian's
# qemu-x86_64; on x86-64 EMULATOR may name one (qemu-x86_64, say, of the package qemu-user), so that the other
# machines' way can be tried there.
if ! command -v rt >/dev/null; then
    echo "rattle: rt, the Rattle toolchain, is not on this machine" >&2
    exit 1
fi
guide=$(rt doc) || exit
toolchain=$(dirname "$guide")/toolchain
emulator=()
[ "$(uname -m)" = x86_64 ] || emulator=(qemu-x86_64)
[ -z "${EMULATOR:-}" ] || emulator=("$EMULATOR")
RUN_RT=("${emulator[@]}" "$toolchain/lib/ld-linux-x86-64.so.2" --library-path "$toolchain/lib")
