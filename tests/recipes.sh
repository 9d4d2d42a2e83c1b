# shellcheck shell=sh
# shellcheck disable=SC2016,SC2154 # shells that are called expand them; tools.sh sets the others
# Tests of the recipes of docs/TESTING_YOUR_CODE.md, as they stand there; tools.sh reads it.

# Prints the block of docs/TESTING_YOUR_CODE.md behind this line.
block() {
    awk -v line="$1" '
        $0 == line { near = 1; next }
        near && /^```/ { if (within) exit; within = 1; next }
        within' docs/TESTING_YOUR_CODE.md
}

# Writes the files of the page that have these names to a new folder, and its commands behind this line to a file there;
# runs these, changed by `edited` where that is set.
recipe() {
    name=$1
    commands=$2
    shift 2
    rm -rf "$scratch/recipe"
    mkdir "$scratch/recipe"
    for file in "$@"; do
        mkdir -p "$(dirname "$scratch/recipe/$file")"
        block "\`$file\`:" >"$scratch/recipe/$file"
        [ -s "$scratch/recipe/$file" ] || fail "$name" "the page has no $file"
    done
    block "$commands" | sed "${edited:-}" >"$scratch/commands"
    [ -s "$scratch/commands" ] || fail "$name" "the page has no commands"
    cd "$scratch/recipe" || exit 1
    run env SVEMU_TOP="$checkout" sh -eux "$scratch/commands"
    cd "$top" || exit 1
}

# Makes a checkout of links, whose ./svemu is the one that is tested.
checkout_of_links() {
    checkout=$scratch/checkout
    mkdir "$checkout"
    ln -s "$top"/* "$checkout"
    rm "$checkout/svemu"
    printf '#!/bin/sh\nexec "$SVEMU" "$@"\n' >"$checkout/svemu"
    chmod +x "$checkout/svemu"
}

recipes() {
    checkout_of_links
    gcc=$(command -v aarch64-linux-gnu-gcc)
    if [ -z "$gcc" ]; then
        for name in "a first program by gcc" "reading a trap" over-reads "a kernel's test" "trying schedules" make CMake; do
            lacks "$name" aarch64-linux-gnu-gcc
        done
    else
        five_minutes gcc "how a program is built, with gcc:"
        first_program gcc
        before_a_run
        seeing_what_ran
        seeing_the_lengths
        seeing_the_lanes
        reading_a_trap
        reading_behind_the_end
        testing_a_kernel
        trying_schedules
        make_recipe
        cmake_recipe
    fi
    lit_recipe
    scaled_by_a_class
    if ! lacks Highway aarch64-linux-gnu-g++; then
        if [ -f /usr/include/hwy/highway.h ]; then
            highway
        else
            to_install="${to_install:-} libhwy-dev"
            skip Highway "without its headers, which Debian has in libhwy-dev"
        fi
    fi
    if ! lacks "a first program by clang" clang ld.lld; then
        five_minutes clang "or with clang:"
        first_program clang
    fi
}

first_program() {
    recipe "a first program by $1" "Build with $1:" sum.c
    holds "a first program by $1 is built" [ "$status" -eq 0 ]
    block "Run it at a length, and at all of them:" >"$scratch/commands"
    cd "$scratch/recipe" || exit 1
    run env SVEMU_TOP="$checkout" sh -eu "$scratch/commands"
    cd "$top" || exit 1
    holds "a first program by $1 runs" awk 'NR == 1 ? $0 != "sum 500500" : !/^vl [0-9]+ exit 0 after [0-9]+ steps out 11 err 0 same$/ { bad = 1 } END { exit bad || NR != 17 }' "$scratch/output"
}

# The block below a line, run in the folder of the recipe before, writes what the page has.
answers_as_the_page() {
    ! lacks "$1" python3 || return 0
    block "$2" >"$scratch/commands"
    cd "$scratch/recipe" || exit 1
    run env SVEMU_TOP="$checkout" sh -eu "$scratch/commands"
    cd "$top" || exit 1
    as_the_page_has "$1" "$2"
}

# An over-read, which nothing shows but a guarded buffer.
reading_behind_the_end() {
    recipe over-reads "Read behind the end, and behind a guarded end:" over.c
    holds "an over-read passes, and traps where the buffer is guarded" awk '
        NR <= 16 && / exit 0 after .* same$/ { passed++ }
        NR > 16 && / trap read 0x[0-9a-f]*000 at / { trapped++ }
        END { exit NR != 32 || passed != 16 || trapped != 16 }' "$scratch/output"
    answers_as_the_page "where an over-read is" "Ask where it reads:"
}

# Whether the last run ended with 1 and what it wrote is what the page has behind this line; of another gcc than the
# page's but for numbers and registers.
as_the_page_has() {
    block_behind "$2" >"$scratch/wanted"
    sed "s,$checkout/tools,/path/to/svemu/tools,g" "$scratch/output" >"$scratch/alike"
    if [ "$(aarch64-linux-gnu-gcc -dumpfullversion)" != 12.2.0 ]; then
        for file in wanted alike; do
            sed 's/[0-9][0-9a-fx]*/N/g' "$scratch/$file" >"$scratch/$file.any" && mv "$scratch/$file.any" "$scratch/$file"
        done
    fi
    holds "$1" sh -c '[ "$1" -eq 1 ] && [ -s "$2" ] && diff "$2" "$3"' sh "$status" "$scratch/wanted" "$scratch/alike"
}

testing_a_kernel() {
    recipe "a kernel's test" "Test the kernel at all lengths, right and with a bug:" negate.c
    block_behind "The right one writes" >"$scratch/wanted"
    holds "a kernel's test at all lengths" sh -c '[ "$(head -n 16 "$1" | grep -c " exit 0 after .* same$")" -eq 16 ]' sh "$scratch/output"
    holds "a kernel's bug is told" sh -c 'tail -n +17 "$1" | cmp -s - "$2"' sh "$scratch/output" "$scratch/wanted"
    answers_as_the_page "which step made a kernel's test fail" "Ask which step it was:"
}

# Prints the lines that are set in behind the line that begins so.
block_behind() {
    awk -v line="$1" '
        index($0, line) == 1 { near = 1 }
        near && /^    / { within = 1; print substr($0, 5); next }
        within { exit }' docs/TESTING_YOUR_CODE.md
}

# A stack without a lock, which some schedules break, and one that none does.
trying_schedules() {
    ! lacks "trying schedules" python3 || return 0
    recipe "trying schedules" "Try schedules of the stack:" stack.c
    holds "some schedules of the stack part" sh -c '[ "$1" -eq 1 ] && [ "$(wc -l <"$2")" -gt 2 ]' sh "$status" "$scratch/output"
    holds "schedules of the stack are kept" sh -c 'ls "$1"/schedules/*.schedule | wc -l | grep -qx 3' sh "$scratch/recipe"
    block "Show all threads as they were after 100 steps of it:" >"$scratch/commands"
    cd "$scratch/recipe" || exit 1
    run env SVEMU_TOP="$checkout" sh -eu "$scratch/commands"
    cd "$top" || exit 1
    holds "all threads of the shortest, with a lower budget" sh -c '[ "$1" -eq 123 ] && grep -qx "thread 1" "$2"' sh "$status" "$scratch/errors"
    block "Show the run of the shortest schedule:" >"$scratch/commands"
    cd "$scratch/recipe" || exit 1
    run env SVEMU_TOP="$checkout" sh -eu "$scratch/commands"
    cd "$top" || exit 1
    holds "the shortest schedule of the stack is traced" sh -c '[ "$1" -eq 1 ] && grep -q "^1) " "$2" &&
        grep -q "^(1 and 1): thread [01] .*; between them thread [01] writes " "$2"' sh "$status" "$scratch/output"
    recipe "trying schedules" "Try schedules of the stack that counts changes:" stack.c
    holds "no schedule of the counted stack parts" [ "$status" -eq 0 ]
    holds "its lines" sh -c '[ "$(tail -n 1 "$1")" = "=> 300 schedules, 0 part" ]' sh "$scratch/output"
    recipe "trying schedules" "Try all schedules with few switches:"
    holds "a schedule with one switch parts" [ "$status" -eq 1 ]
    holds "all with one agree, and one parts" sh -c 'grep -qx "=> all [0-9]* schedules with at most 1 switch agree" "$1" &&
        grep -q "^shortest 3 turns stuck after " "$1" && [ -s "$2/schedules/shortest.schedule" ]' sh \
        "$scratch/output" "$scratch/recipe"
}

# A new folder with the kernel of the first section and its test.
five_minutes_files() {
    rm -rf "$scratch/recipe"
    mkdir "$scratch/recipe"
    block 'The kernel, `kernel.c`:' >"$scratch/recipe/kernel.c"
    block 'Its test calls it and says how many numbers are wrong, `test.c`:' >"$scratch/recipe/test.c"
}

# The first section: a kernel in C, and a planted bug that is found.
five_minutes() {
    five_minutes_files
    block "$2" >"$scratch/build"
    block "Build it and run it, at 384 bits and at all sixteen lengths:" | cat "$scratch/build" - >"$scratch/commands"
    block "and look for it:" | cat "$scratch/build" - >"$scratch/planting"
    cd "$scratch/recipe" || exit 1
    run env SVEMU_TOP="$checkout" sh -eu "$scratch/commands"
    holds "five minutes by $1" sh -c '[ "$1" -eq 0 ] && [ "$(head -n 1 "$2")" = "wrong 0" ] &&
        [ "$(grep -cE "^vl [0-9]+ exit 0 after [0-9]+ steps out 8 err 0 same$" "$2")" -eq 16 ]' sh "$status" "$scratch/output"
    run env SVEMU_TOP="$checkout" sh -eu "$scratch/planting"
    holds "the planted bug by $1" sh -c '[ "$1" -eq 1 ] && [ "$(grep -c "same$" "$2")" -eq 1 ] &&
        [ "$(grep -cE "^vl [0-9]+ exit 1 after [0-9]+ steps out 9 err 0 parts at 6$" "$2")" -eq 15 ]' sh "$status" "$scratch/output"
    cd "$top" || exit 1
    block_behind "Behind the sixteen lines stands one more" >"$scratch/wanted"
    holds "the planted bug's line by $1" cmp "$scratch/errors" "$scratch/wanted"
}

# Of the program that was built last: which svemu it is that runs it, and that it has no instruction on V registers.
before_a_run() {
    block "tools then ask nothing of the checkout:" >"$scratch/commands"
    echo '[ -x "$SVEMU" ] && "$SVEMU" run sum.elf --vl 128 --budget 1000000' >>"$scratch/commands"
    block "Before a run, this shows the instructions on V registers of a program; all but \`movi\` and \`mvni\` are outside:" \
        >"$scratch/shows"
    cd "$scratch/recipe" || exit 1
    # The checkout's own svemu, unless another one is tested and it would have to build.
    if env -u SVEMU "$top/svemu" --program >/dev/null 2>&1; then
        run env -u SVEMU SVEMU_TOP="$top" sh -eu "$scratch/commands"
        holds "the program that svemu is" sh -c "[ $status -eq 0 ] && [ \"\$(cat '$scratch/output')\" = 'sum 500500' ]"
    else
        skip "the program that svemu is" "this checkout has none that is built; ./svemu --build builds it"
    fi
    run sh -u "$scratch/shows"
    holds "no instruction on V registers" sh -c "[ $status -eq 1 ] && [ ! -s '$scratch/output' ] && [ ! -s '$scratch/errors' ]"
    cd "$top" || exit 1
}

# What ran of the program over the lengths: the two blocks behind these words, as they stand.
seeing_what_ran() {
    ! lacks "seeing what ran" python3 || return 0
    block "Draw what ran:" >"$scratch/commands"
    block "Write what other tools read:" >>"$scratch/commands"
    cd "$scratch/recipe" || exit 1
    run env SVEMU_TOP="$checkout" SVEMU_TOOL="$tool" sh -eu "$scratch/commands"
    cd "$top" || exit 1
    holds "seeing what ran" sh -c '[ "$1" -eq 0 ] && grep -q "<title>What ran of sum.elf from 128 to 2048 bits<" "$2/ran.html" && grep -q "^main: " "$2/ran.txt" && grep -q "^TN:vl_2048" "$2/ran.info" && grep -q "^events: VL128 " "$2/ran.callgrind"' \
        sh "$status" "$scratch/recipe"
    checking_in_ci
}

# A build server's check, as it stands there, of the kernel and of one with a bug.
checking_in_ci() {
    block "\`check.sh\`:" >"$scratch/recipe/check.sh"
    block "Check the kernel as a build server does:" >"$scratch/commands"
    for change in '' 's/i += svcntw()/i += 16/'; do
        cp "$scratch/recipe/sum.c" "$scratch/sum.c"
        sed -i "$change" "$scratch/recipe/sum.c"
        cd "$scratch/recipe" || exit 1
        run env SVEMU_TOP="$checkout" SVEMU_TOOL="$tool" sh -eu "$scratch/commands"
        cd "$top" || exit 1
        cp "$scratch/sum.c" "$scratch/recipe/sum.c"
        if [ -z "$change" ]; then
            holds "a check in CI" \
                sh -c '[ "$1" -eq 0 ] && grep -q "<title>What ran of ci.elf from 128 to 2048 bits<" "$2/ci.html" && grep -q "^TN:vl_2048" "$2/ci.info"' sh "$status" "$scratch/recipe"
        else
            holds "a check in CI of a kernel with a bug" [ "$status" -eq 1 ]
        fi
    done
}

# Of the program that was built last.
seeing_the_lengths() {
    ! lacks "seeing the lengths" python3 || return 0
    if ! "$SVEMU" sweep "$probe" --budget 10 <"$input" >/dev/null 2>&1; then
        skip "seeing the lengths" "this svemu has no sweep"
        return
    fi
    block "Draw a program over the lengths:" >"$scratch/commands"
    cd "$scratch/recipe" || exit 1
    run env SVEMU_TOP="$checkout" sh -eu "$scratch/commands"
    cd "$top" || exit 1
    holds "seeing the lengths" sh -c "[ $status -eq 0 ] && grep -q '<title>sum.elf from 128 to 2048 bits<' '$scratch/recipe/lengths.html' && grep -q 'same at all sixteen lengths' '$scratch/recipe/lengths.html'"
    block "Tell where two lengths part:" >"$scratch/commands"
    cd "$scratch/recipe" || exit 1
    run env SVEMU_TOP="$checkout" sh -eu "$scratch/commands"
    cd "$top" || exit 1
    ended "where two lengths part" 0 'the output and the ending are the same at all sixteen lengths\n' ''
    block "Tell where it parts:" >"$scratch/commands"
    cd "$scratch/recipe" || exit 1
    run env SVEMU_TOP="$checkout" sh -eu "$scratch/commands"
    cd "$top" || exit 1
    as_the_page_has "where a prefix sum parts" "Tell where it parts:"
}

# Of the program that was built last.
seeing_the_lanes() {
    ! lacks "seeing the lanes" python3 || return 0
    block "Draw a part of a run:" >"$scratch/commands"
    cd "$scratch/recipe" || exit 1
    run env SVEMU_TOP="$checkout" sh -eu "$scratch/commands"
    cd "$top" || exit 1
    holds "seeing the lanes" sh -c "[ $status -eq 0 ] && grep -q '<title>sum.elf at 384 bits, step ' '$scratch/recipe/sum.html' && grep -q '\"at\":\"main\"' '$scratch/recipe/sum.html'"
}

# A program in C++ without a library.
scaled_by_a_class() {
    for compiler in g++ clang++; do
        needed=aarch64-linux-gnu-g++
        [ "$compiler" = g++ ] || needed="clang++ ld.lld"
        # shellcheck disable=SC2086 # words
        ! lacks "C++ by $compiler" $needed || continue
        recipe "C++ by $compiler" "Build the class with $compiler and run it:" scaled.cc
        holds "a class is built by $compiler and runs at all lengths" sh -c "[ $status -eq 0 ] && [ \"\$(grep -cE '^vl [0-9]+ exit 0 after [0-9]+ steps out 13 err 0 same\$' '$scratch/output')\" -eq 16 ]"
    done
}

highway() {
    for compiler in g++ clang++; do
        [ "$compiler" = g++ ] || ! lacks "Highway by clang++" clang++ ld.lld || continue
        recipe Highway "Build with $compiler and run it:" highway_sum.cc
        holds "Highway's sum is built by $compiler and runs at all lengths" sh -c "[ $status -eq 0 ] && [ \"\$(grep -cE '^vl [0-9]+ exit 0 after [0-9]+ steps out 11 err 0 same\$' '$scratch/output')\" -eq 16 ]"
    done
    positives "checked in:" "$top/examples"
    for compiler in g++ clang++; do
        [ "$compiler" = g++ ] || ! lacks "the example of Highway by clang++" clang++ ld.lld || continue
        rm -rf "$scratch/examples"
        cp -R examples "$scratch/examples"
        rm "$scratch/examples/positives.elf"
        case $compiler in
            g++) holds "the example of Highway is built" make -C "$scratch/examples" highway ;;
            *) holds "the example of Highway is built by clang++" make -C "$scratch/examples" CC=clang CXX=clang++ highway ;;
        esac
        positives "built by $compiler:" "$scratch/examples"
    done
}

positives() {
    for vl in 128 384 2048; do
        run "$runner" --vl "$vl" "$2/positives.elf"
        holds "$1 positives at $vl" sh -c "[ $status -eq 0 ] && cmp '$scratch/output' examples/positives.out && [ ! -s '$scratch/errors' ]"
    done
}

reading_a_trap() {
    recipe "reading a trap" "Build the popcount and run it:" popcount.c
    holds "a popcount is run" [ "$status" -eq 132 ]
    sed '/svemu-runner/d' "$scratch/commands" >"$scratch/build"
    cd "$scratch/recipe" || exit 1
    run "$runner" popcount.elf
    address=$(sed -n 's/^svemu: undefined word 0x[0-9a-f]* (.*) at 0x\([0-9a-f]*\), .*, after [0-9]* steps$/\1/p' "$scratch/errors")
    cd "$top" || exit 1
    holds "a popcount is undefined" [ "$status" -eq 132 ]
    # The page has the address of one compiler.
    if [ "$(aarch64-linux-gnu-gcc -dumpfullversion)" = 12.2.0 ]; then
        holds "the trap in the page" grep -Fqx "    $(cat "$scratch/errors")" docs/TESTING_YOUR_CODE.md
        block "Show the instruction at an address:" >"$scratch/commands"
        (cd "$scratch/recipe" && sh -eu "$scratch/commands") >"$scratch/output" 2>&1
        holds "the address in the page" grep -q 'cnt[[:space:]]*v0.8b' "$scratch/output"
    fi
    sed 's/ -O2 / -g&/' "$scratch/build" >"$scratch/commands"
    # GNU's addr2line goes by the lines of DWARF 4.
    for by in llvm-addr2line aarch64-linux-gnu-addr2line; do
        ! lacks "lines by $by" "$by" || continue
        [ "$by" = llvm-addr2line ] || sed -i 's/ -g / -gdwarf-4 /' "$scratch/commands"
        (cd "$scratch/recipe" && SVEMU_TOP="$checkout" sh -eu "$scratch/commands" && "$by" -f -e popcount.elf "0x$address") >"$scratch/output" 2>&1
        holds "$by names the function and the line" \
            sh -c 'grep -qx main "$1" && grep -q "popcount.c:6" "$1"' sh "$scratch/output"
    done
    holds "objdump names it" sh -c "aarch64-linux-gnu-objdump -d --start-address=0x$address --stop-address=\$((0x$address + 4)) '$scratch/recipe/popcount.elf' | grep -q 'cnt[[:space:]]*v0.8b'"
}

make_recipe() {
    if ! lacks make aarch64-linux-gnu-g++; then
        recipe make "Run with make:" Makefile sum.c scaled.cc
        both_at_all_lengths make
        # A test that fails is seen.
        sed -i 's/sum == 15150/sum != 15150/' "$scratch/recipe/scaled.cc"
        run env SVEMU_TOP="$checkout" make -k -C "$scratch/recipe" check lengths
        holds "make with a wrong program" sh -c '[ "$1" -eq 2 ] &&
            grep -q "^svemu-lengths: scaled.elf: at 128 bits it ends by exit 1, and not by exit 0$" "$2"' sh "$status" "$scratch/errors"
    fi
    if ! lacks "make by clang" clang clang++ ld.lld; then
        recipe "make by clang" "Run with make, by clang:" Makefile sum.c scaled.cc
        both_at_all_lengths "make by clang"
    fi
}

both_at_all_lengths() {
    holds "$1" sh -c '[ "$1" -eq 0 ] && [ "$(grep -cx "sum 500500" "$2")" -eq 3 ] && [ "$(grep -cx "scaled 15150" "$2")" -eq 3 ] &&
        [ "$(grep -cE "^vl .* out 1[13] err 0 same$" "$2")" -eq 32 ]' sh "$status" "$scratch/output"
}

cmake_recipe() {
    ! lacks CMake cmake ctest aarch64-linux-gnu-g++ || return 0
    if ! lacks "CMake by clang" clang clang++ ld.lld; then
        recipe "CMake by clang" "Run with CMake, by clang:" toolchain-clang.cmake CMakeLists.txt sum.c scaled.cc
        holds "CMake by clang" sh -c "[ $status -eq 0 ] && grep -q '100% tests passed, 0 tests failed out of 8' '$scratch/output'"
    fi
    recipe CMake "Run with CMake:" toolchain.cmake CMakeLists.txt sum.c scaled.cc
    cp "$scratch/recipe/CMakeLists.txt" "$scratch/lists"
    holds "CMake" sh -c "[ $status -eq 0 ] && grep -q '100% tests passed, 0 tests failed out of 8' '$scratch/output'"
    # A test that fails is seen.
    sed 's/sum == 500500/sum != 500500/' "$scratch/recipe/sum.c" >"$scratch/wrong.c"
    cp "$scratch/wrong.c" "$scratch/recipe/sum.c"
    run env SVEMU_TOP="$checkout" sh -c 'cmake --build "$1" && cd "$1" && ctest' sh "$scratch/recipe/build"
    holds "CMake with a wrong program" sh -c "[ $status -ne 0 ] && grep -q '50% tests passed, 4 tests failed out of 8' '$scratch/output'"
    # A program of two files, by the lines of the page in the place of the one that begins its loop.
    five_minutes_files
    block "A program of two files names both, as the kernel of the first section with its test, and stands in the \`foreach\`:" >"$scratch/two"
    for file in toolchain.cmake sum.c scaled.cc; do
        block "\`$file\`:" >"$scratch/recipe/$file"
    done
    sed "/^foreach(program/{r $scratch/two
        d;}" "$scratch/lists" >"$scratch/recipe/CMakeLists.txt"
    block "Run with CMake:" >"$scratch/commands"
    cd "$scratch/recipe" || exit 1
    run env SVEMU_TOP="$checkout" sh -eux "$scratch/commands"
    cd "$top" || exit 1
    holds "CMake of a program of two files" \
        sh -c "[ $status -eq 0 ] && grep -q '100% tests passed, 0 tests failed out of 12' '$scratch/output'"
}

lit_recipe() {
    for lit in /usr/lib/llvm-14/build/utils/lit/lit.py "$(command -v lit)" "$(command -v llvm-lit)" /usr/lib/llvm-*/build/utils/lit/lit.py; do
        [ ! -f "$lit" ] || break
    done
    for check in "$(command -v FileCheck)" /usr/lib/llvm-*/bin/FileCheck; do
        [ ! -x "$check" ] || break
    done
    ! lacks lit python3 || return 0
    if [ ! -f "$lit" ] || [ ! -x "$check" ]; then
        to_install="${to_install:-} llvm-14-tools"
        skip lit "without lit or FileCheck, which Debian has in llvm-14-tools"
        return
    fi
    mkdir -p "$scratch/bin"
    printf '#!/bin/sh\nexec python3 "%s" "$@"\n' "$lit" >"$scratch/bin/lit"
    chmod +x "$scratch/bin/lit"
    before=$PATH
    PATH=$scratch/bin:${check%/*}:$PATH
    # By another lit than the page's as the page says of one in the PATH.
    [ -f /usr/lib/llvm-14/build/utils/lit/lit.py ] || edited='s,^/[^ ]*/lit\.py ,lit ,'
    if ! lacks "lit" aarch64-linux-gnu-g++; then
        checked_by_lit lit "Run with lit, as Debian has it:"
        sed 's/svcntd()) /svcntw()) /; s/== svcntd()/== svcntw()/' "$scratch/recipe/checked/lanes.c" >"$scratch/wrong.c"
        cp "$scratch/wrong.c" "$scratch/recipe/checked/lanes.c"
        run env SVEMU_TOP="$checkout" lit "$scratch/recipe/checked"
        holds "lit with a wrong program" \
            sh -c "[ $status -ne 0 ] && grep -Eq 'Failed *: *1|Unexpected Failures *: *1' '$scratch/output'"
    fi
    if ! lacks "lit by clang" clang clang++ ld.lld; then
        checked_by_lit "lit by clang" "Run with lit, by clang:"
        sed 's/2 [*] lanes/4 * lanes/' "$scratch/recipe/checked/lanes_of_types.cc" >"$scratch/wrong.cc"
        cp "$scratch/wrong.cc" "$scratch/recipe/checked/lanes_of_types.cc"
        run env SVEMU_TOP="$checkout" lit --param by=clang "$scratch/recipe/checked"
        holds "lit by clang with a wrong program" \
            sh -c "[ $status -ne 0 ] && grep -Eq 'Failed *: *1|Unexpected Failures *: *1' '$scratch/output'"
    fi
    edited=
    PATH=$before
}

# Both tests of lit pass.
checked_by_lit() {
    recipe "$1" "$2" checked/lit.cfg.py checked/lanes.c checked/lanes_of_types.cc
    holds "$1" sh -c "[ $status -eq 0 ] && grep -Eq 'Passed *: *2|Expected Passes *: *2' '$scratch/output'"
}
