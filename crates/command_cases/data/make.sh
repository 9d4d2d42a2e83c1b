#!/bin/sh
# Makes the images and what is expected of them. With cross compilers, binutils and qemu-user of Debian 12 at hand:
#   sh make.sh            the images
#   sh make.sh expected   and writes the outputs, statuses and numbers of steps, by qemu-aarch64
set -eu
cd "$(dirname "$0")"

gcc_flags='-march=armv8-a+sve --param=aarch64-autovec-preference=2 -fno-tree-slp-vectorize'
clang_flags='--target=aarch64-linux-gnu -march=armv8-a+sve -fno-slp-vectorize'
both='-std=gnu11 -Wall -Wextra -ffreestanding -nostdlib -static -fno-stack-protector -mno-outline-atomics -fno-pic -fno-asynchronous-unwind-tables'

# NAME LEVEL
by_gcc() {
    aarch64-linux-gnu-gcc $gcc_flags $both -no-pie "$2" -fno-tree-loop-distribute-patterns -c guest.c -o "$dir/guest.o"
    aarch64-linux-gnu-gcc $gcc_flags $both -no-pie "$2" -Wl,--build-id=none -Wl,-z,max-page-size=4096 -Wl,-z,noexecstack -s \
        -o "$1.elf" guest_start.S "$1.c" "$dir/guest.o"
}

by_clang() {
    clang $clang_flags $both "$2" -fno-builtin -c guest.c -o "$dir/guest.o"
    clang $clang_flags $both "$2" -fuse-ld=lld -Wl,--build-id=none -Wl,-z,max-page-size=4096 -Wl,-z,noexecstack -s \
        -o "$1.elf" guest_start.S "$1.c" "$dir/guest.o"
}

dir=$(mktemp -d)
trap 'rm -rf "$dir"' EXIT
by_gcc loops -O3
by_clang pictures -O2
by_gcc lanes -O2
by_clang structures -O2
by_gcc gathers -O3
by_clang strings -O3
by_gcc heap -O2
by_clang parser -O3
by_gcc spills -O3

# Of each run of an image in ../stdin, what it writes and how it ends, by qemu-aarch64.
expected() {
    sed -nE 's/^(line|brief) run ([a-z]+[.]elf) --vl ([0-9]+) --budget [0-9]+( -- )?/\2 \3 /p' ../stdin |
    while read -r file bits args; do
        [ -e "$file" ] || continue
        quads=$((bits / 128))
        [ "$file" = parser.elf ] && from=parser.in || from=/dev/null
        # shellcheck disable=SC2086
        qemu-aarch64 -cpu "max,pauth=off,sve-max-vq=$quads,sve-default-vector-length=$((bits / 8))" "./$file" $args <"$from" && status=0 || status=$?
        # shellcheck disable=SC2086
        steps=$(qemu-aarch64 -cpu "max,pauth=off,sve-max-vq=$quads,sve-default-vector-length=$((bits / 8))" -singlestep -d exec,nochain \
            -D /dev/stderr "./$file" $args <"$from" 2>&1 >/dev/null | grep -c '^Trace') || :
        echo "run $file --vl $bits${args:+ -- $args}: exit $status after $steps steps"
    done
}

if [ "${1:-}" = expected ]; then
    expected
fi
