# shellcheck shell=sh
# shellcheck disable=SC2016,SC2154 # shells that are called expand them; tools.sh sets the others
# Tests of the guarded buffers of examples/guest.h and of the test of a kernel in one line, examples/kernel_test.h, over
# the planted bugs of tests/planted; tools.sh reads it.

kernel_tests() {
    if ! "$SVEMU" sweep "$probe" --budget 10 <"$input" >/dev/null 2>&1; then
        skip "kernels" "this svemu has no sweep"
        return
    fi
    for compiler in aarch64-linux-gnu-gcc clang; do
        needed=$compiler
        [ "$compiler" != clang ] || needed="clang ld.lld"
        # shellcheck disable=SC2086 # words
        ! lacks "kernels built by $compiler" $needed || continue
        rm -rf "$scratch/kernels"
        mkdir "$scratch/kernels"
        cp examples/Makefile examples/start.S examples/*.h tests/planted/*.c "$scratch/kernels"
        images=$(cd "$scratch/kernels" && for source in *.c; do echo "${source%.c}.elf"; done)
        # shellcheck disable=SC2086 # a word an image
        holds "kernels built by $compiler" make -s -C "$scratch/kernels" CC="$compiler" $images
        grep -v '^#' tests/planted/finds.txt >"$scratch/finds"
        holds "each planted bug has its line" sh -c '[ "$(ls tests/planted/*.c | wc -l)" -eq "$(wc -l <"$1")" ]' sh "$scratch/finds"
        while read -r kernel first last; do
            planted "$compiler" "$kernel" "$first" "$last"
        done <"$scratch/finds"
    done
}

# Whether a planted bug is found at the lengths from the first to the last, and the kernel agrees at all others.
planted() {
    run "$SVEMU" sweep "$scratch/kernels/$2.elf" --budget 100000000
    holds "$2 by $1: the lengths that find it" awk -v first="$3" -v last="$4" '
        { found = $2 >= first && $2 <= last
          if (found ? !/ (exit 1 after|trap (read|write) )/ : !/ exit 0 after/) { print; bad = 1 } }
        END { exit bad || NR != 16 }' "$scratch/output"
    run "$SVEMU" run "$scratch/kernels/$2.elf" --vl "$3" --budget 100000000
    if [ "$status" -eq 1 ]; then
        holds "$2 by $1: the call that parts" grep -Eqx "$2 parts: n [0-9]+, guarded at its (end|begin), alignment [0-9]+(, element [0-9]+)?: wanted [0-9a-f]+, got [0-9a-f]+|$2 parts: n [0-9]+, guarded at its (end|begin), alignment [0-9]+: wrote [0-9]+ bytes (before|behind) its output" "$scratch/output"
    else
        holds "$2 by $1: an access outside is a trap" [ "$status" -eq 139 ]
    fi
}
