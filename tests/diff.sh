# shellcheck shell=sh
# shellcheck disable=SC2016,SC2154 # shells that are called expand them; tools.sh sets the others
# Tests of tools/svemu-diff, over the planted bugs of tests/planted with counts of elements that don't go by the length
# (tests/fixed), and over programs whose calls, output or ending alone part; tools.sh reads it.

diff_tool=$top/tools/svemu-diff
lanes=$top/tools/svemu-lanes

# Runs its words with an interrupt that ends them, also where a shell in the background ignores it.
interruptible='import os, signal, sys
signal.signal(signal.SIGINT, signal.SIG_DFL)
os.execvp(sys.argv[1], sys.argv[1:])'

# Builds the C programs of a folder by a compiler, with their symbols, their lines and all their calls.
with_symbols() {
    apart=-fno-inline
    [ "$2" = clang ] || apart="-fno-inline -fno-ipa-cp"
    # shellcheck disable=SC2046 # words
    make -s -C "$1" CC="$2" DEBUG=-g CFLAGS="-O2 $apart -Wno-address" \
        SMALL="-ffunction-sections -Wl,--gc-sections -Wl,--build-id=none -Wl,-z,max-page-size=4096" \
        $(cd "$1" && for source in *.c; do echo "${source%.c}.elf"; done)
}

where_lengths_part() {
    ! lacks "where two lengths part" python3 || return 0
    diff_refusals
    # By gcc, or where it isn't there by clang.
    compiler=aarch64-linux-gnu-gcc
    if ! command -v "$compiler" >/dev/null && command -v clang >/dev/null && command -v ld.lld >/dev/null; then
        compiler=clang
    fi
    [ "$compiler" = clang ] || ! lacks "where two lengths part" "$compiler" || return 0
    if ! "$SVEMU" sweep "$probe" --budget 10 <"$input" >/dev/null 2>&1; then
        skip "where two lengths part" "this svemu has no sweep"
        return
    fi
    rm -rf "$scratch/parting"
    mkdir "$scratch/parting"
    cp examples/Makefile examples/start.S examples/guest.h examples/lost_sums.c tests/fixed/kernel_test.h tests/fixed/*.c \
        tests/planted/*.c "$scratch/parting"
    holds "programs with symbols by $compiler" with_symbols "$scratch/parting" "$compiler"
    grep -v '^#' tests/fixed/parts.txt >"$scratch/parts"
    holds "each planted bug has its line of svemu-diff" sh -c \
        '[ "$(ls tests/planted/*.c | wc -l)" -eq "$(wc -l <"$1")" ]' sh "$scratch/parts"
    while read -r kernel length call instruction; do
        parts_in "$kernel" "$length" "$call" "$instruction"
    done <"$scratch/parts"
    drawn_call
    sum_that_parts
    calls_that_part
    where_it_traps
    what_a_test_found
    diff_of_a_stripped_program
}

# Whether the kernel's own call is told, and an instruction of it with its line; or that nothing parts, where the length
# is a dash.
parts_in() {
    run "$diff_tool" "$scratch/parting/$1.elf"
    if [ "$2" = - ]; then
        ended "$1 doesn't part" 0 'the output and the ending are the same at all sixteen lengths\n' ''
        return
    fi
    holds "$1: the lengths and the call" sh -c '[ "$1" -eq 1 ] && [ ! -s "$2" ] && head -n 1 "$3" | grep -Eqx "$4"' sh \
        "$status" "$scratch/errors" "$scratch/output" "128 and $2 bits part in call $3 of $1 \(of main\+0x[0-9a-f]+\)"
    holds "$1: the instruction" grep -Eqx \
        "at ($2|128) bits it was written in step [0-9]+, $4 .* at $1\+0x[0-9a-f]+( \($1\.c:[0-9]+\))?(, lane [0-9]+ of its [0-9]+)?" \
        "$scratch/output"
}

# The command of a line of svemu-diff as a shell takes it, its page on the output in place of the browser's.
drawn_as_told() {
    printf '%s\n' "${1#*: }" | sed 's/ --open / /' >"$scratch/copied"
    run sh -eu "$scratch/copied"
    holds "the command that is told" [ "$status" -eq 0 ]
}

# The command by the name that calls svemu-lanes: alone where the PATH has it, by the folder where it hasn't; with the
# limits and the words that were given, quoted.
as_others_call_it() {
    cp "$scratch/parting/parting.elf" "$scratch/parting/it's.elf"
    run env PATH="$top/tools:$PATH" svemu-diff --vl 384 --beside 512 --budget 5000 "$scratch/parting/it's.elf" trap
    holds "svemu-lanes by the PATH" sh -c 'tail -n 1 "$1" | grep -q "^draw [a-z ]*: svemu-lanes --open .* --budget 5000 .*it.*s.elf.* trap$"' sh "$scratch/output"
    run env PATH="$top/tools:$PATH" sh -c "$(tail -n 1 "$scratch/output" | sed 's/^[^:]*: //; s/ --open / /')"
    holds "its page" sh -c '[ "$1" -eq 0 ] && grep -q "<title>it.*s.elf at 384 bits" "$2"' sh "$status" "$scratch/output"
    run sh -c 'cd tools && ./svemu-diff --vl 384 --beside 512 "$1" trap' sh "$scratch/parting/parting.elf"
    holds "svemu-lanes in this folder" sh -c 'tail -n 1 "$1" | grep -q "^draw [a-z ]*: \./svemu-lanes --open "' sh "$scratch/output"
}

# The call that svemu-diff names in its last line, drawn as that line says; a call that there isn't, and a function.
drawn_call() {
    run "$diff_tool" "$scratch/parting/last_step.elf"
    named=$(tail -n 1 "$scratch/output")
    holds "the call is named for svemu-lanes" sh -c 'printf "%s\n" "$1" | grep -Eqx "$2"' sh "$named" \
        "draw it: $lanes --open --in last_step --call [0-9]+ --vl 128 --beside [0-9]+ $scratch/parting/last_step.elf"
    drawn_as_told "$named"
    holds "it is drawn by both lengths" sh -c 'grep -q "<title>last_step.elf at 128 and [0-9]* bits, call [0-9]* of last_step" "$1" &&
        grep -q "st1w {z0.s}" "$1" && [ "$(wc -c <"$1")" -lt 3000000 ]' sh "$scratch/output"
    as_others_call_it
    run "$top/tools/svemu-lanes" --in last_step --call 99 --vl 128 "$scratch/parting/last_step.elf"
    ended_like "a call that there isn't" 2 'svemu-lanes: .*last_step.*'
    run "$top/tools/svemu-lanes" --from last_step+0x4 --steps 3 "$scratch/parting/last_step.elf"
    holds "a place behind a label" sh -c '[ "$1" -eq 0 ] && grep -q "last_step+0x4" "$2"' sh "$status" "$scratch/output"
    run "$top/tools/svemu-lanes" --from nosuch+0x4 "$scratch/parting/last_step.elf"
    ended "no such label behind it" 2 '' 'svemu-lanes: no symbol is named nosuch\n'
    run "$top/tools/svemu-lanes" --in nosuch "$scratch/parting/last_step.elf"
    ended_like "a function that there isn't" 2 'svemu-lanes: .*nosuch.*'
    run "$top/tools/svemu-lanes" --in last_step --beside 192 "$scratch/parting/last_step.elf"
    ended "no length beside" 2 '' 'svemu-lanes: --beside wants a multiple of 128 from 128 to 2048, not 192\n'
}

# The lost sums: what is told of x0; lengths that are given; a function that is chosen; lengths that don't part.
sum_that_parts() {
    run "$diff_tool" --vl 256 --beside 512 "$scratch/parting/lost_sums.elf"
    holds "lost sums: the call" grep -Eqx '256 and 512 bits part in call 1 of sum \(of main\+0x[0-9a-f]+\)' "$scratch/output"
    holds "lost sums: the answers" grep -qx 'it answers 000000000007a314 in x0 at 256, 000000000003d95c at 512 bits' "$scratch/output"
    holds "lost sums: its step" grep -Eqx 'at 512 bits it was written in step [0-9]+, .* at sum\+0x[0-9a-f]+ \(lost_sums.c:[0-9]+\)' "$scratch/output"
    holds "lost sums: the page" grep -qx "draw it: $lanes --open --in sum --call 1 --vl 256 --beside 512 $scratch/parting/lost_sums.elf" "$scratch/output"
    call_beside_another
    run "$diff_tool" --vl 256 --beside 512 --in put_number "$scratch/parting/lost_sums.elf"
    holds "lost sums without the sum's call" [ "$status" -eq 1 ]
    holds "lost sums by the output" grep -qx '256 and 512 bits part at byte 4 of what they write, and in nothing else that is compared' "$scratch/output"
    run "$diff_tool" --vl 128 --beside 256 "$scratch/parting/lost_sums.elf"
    ended "lengths that don't part" 0 "128 and 256 bits don't part\n" ''
    run "$diff_tool" --in nosuch "$scratch/parting/lost_sums.elf"
    ended "no such function" 2 '' 'svemu-diff: no function is named nosuch\n'
    run "$diff_tool" --in put_num "$scratch/parting/lost_sums.elf"
    ended "a part of a function's name" 2 '' 'svemu-diff: no function is named put_num; there is put_number\n'
}

# The page that svemu-diff names: its rows are the steps of the call at either length, and steps in one row stand at one
# address.
call_beside_another() {
    run "$lanes" --in sum --call 1 --vl 256 --beside 512 "$scratch/parting/lost_sums.elf"
    holds "the page of a call at two lengths" [ "$status" -eq 0 ]
    cp "$scratch/output" "$scratch/page.html"
    holds "its rows" python3 -c 'import sys
sys.path.insert(0, "tests")
from pages import data_of
data = data_of(sys.argv[1])
left, right = ([row | side["code"][row["c"]] for row in side["rows"]] for side in data["sides"])
assert [side["vl"] for side in data["sides"]] == [256, 512]
for k, rows in enumerate((left, right)):
    assert [pair[k] for pair in data["pairs"] if pair[k] is not None] == list(range(len(rows)))
    assert [row["n"] for row in rows] == list(range(rows[0]["n"], rows[0]["n"] + len(rows)))
    assert rows[0]["at"] == "sum" and rows[-1]["text"].startswith("ret")
both = [(left[i], right[j]) for i, j in data["pairs"] if i is not None and j is not None]
assert all(one["pc"] == other["pc"] for one, other in both)
# Of 125 turns and of 63 all but those that the longer vector has no need of stand side by side.
assert len(both) == len(right) < len(left), (len(both), len(left), len(right))' "$scratch/page.html"
    lacks "the page of a call in Chromium" chromium ||
        holds "the page of a call in Chromium" timeout 120 python3 tests/pages.py --rows "$scratch/page.html"
    run "$lanes" --in sum --call 1 --vl 512 "$scratch/parting/lost_sums.elf"
    holds "the page of a call" sh -c '[ "$1" -eq 0 ] && grep -q "call 1 of sum, step" "$2"' sh "$status" "$scratch/output"
    run "$lanes" --in sum --call 2 "$scratch/parting/lost_sums.elf"
    ended "no such call" 2 '' 'svemu-lanes: at 512 bits sum is called 1 time, so there is no call 2\n'
    run "$lanes" --in sum --after 100000 "$scratch/parting/lost_sums.elf"
    holds "a call that ends before" sh -c '[ "$1" -eq 2 ] && grep -Eqx "svemu-lanes: the call has [0-9]+ steps, and --after leaves none of them" "$2"' \
        sh "$status" "$scratch/errors"
}

# What each of the functions of tests/fixed/parting.c does, by the argument.
calls_that_part() {
    parting=$scratch/parting/parting.elf
    run "$diff_tool" --vl 128 --beside 256 "$parting" calls
    holds "other calls" sh -c '[ "$1" -eq 1 ] && head -n 1 "$2" | grep -Eqx "$3"' sh "$status" "$scratch/output" \
        '128 and 256 bits part in what they call after the return of call 1 of once \(of main\+0x[0-9a-f]+\); memory is the same there'
    # clang says no line of a call that two branches share.
    holds "the call of one" grep -Eqx 'at 128 bits main\+0x[0-9a-f]+( \(parting.c:[0-9]+\))? calls once in step [0-9]+' "$scratch/output"
    holds "the call of the other" grep -Eqx 'at 256 bits main\+0x[0-9a-f]+ \(parting.c:[0-9]+\) calls twice in step [0-9]+' "$scratch/output"
    run "$diff_tool" --vl 128 --beside 256 "$parting" output
    holds "the output alone" sh -c '[ "$1" -eq 1 ] && head -n 1 "$2" | grep -qx "$3"' sh "$status" "$scratch/output" \
        '128 and 256 bits part at byte 6 of what they write, and in nothing else that is compared'
    holds "what one writes" grep -Eqx "at 256 bits step [0-9]+ writes '32' at .*, in call [0-9]+ of .*" "$scratch/output"
    run "$diff_tool" "$parting" trap
    holds "a trap" grep -Eqx 'at 384 bits it ends by trap break 0x[0-9a-f]+ at broken\+0x[0-9a-f]+ \(parting.c:[0-9]+\) after [0-9]+ steps in call 1 of broken \(of main\+0x[0-9a-f]+\)' "$scratch/output"
    holds "its status" [ "$status" -eq 1 ]
    run "$diff_tool" --vl 128 --beside 256 "$parting" mapping
    holds "a mapping" grep -qx 'after it 1 byte differs, the first in mapping 2+0x3: 10 at 128, 20 at 256 bits' "$scratch/output"
    holds "the store to it" grep -Eqx 'at 256 bits it was written in step [0-9]+, strb .* at mapped \(parting.c:[0-9]+\)' "$scratch/output"
    run "$diff_tool" --vl 128 --beside 256 "$parting" before
    holds "before a call" grep -Eqx '128 and 256 bits part in call 1 of main \(of _start\+0x8\), before call 2 of once \(of main\+0x[0-9a-f]+\)' "$scratch/output"
    run "$diff_tool" --vl 128 --beside 256 "$parting" unread
    ended "an x0 that nobody reads, and addresses of the stack" 0 "128 and 256 bits don't part\n" ''
    run "$diff_tool" --vl 128 --beside 256 --budget 1000 "$parting" endless
    ended "no end" 2 '' "svemu-diff: at 128 bits the program doesn't end within 1000 steps\n"
    run "$diff_tool" --budget 1000 "$parting" endless
    ended "no end under a sweep" 2 '' "svemu-diff: at 128 bits the program doesn't end within 1000 steps\n"
    run "$diff_tool" --vl 128 --beside 256 "$parting" threads
    ended "threads" 2 '' 'svemu-diff: the program starts threads, and a session of the debugger has one\n'
    run python3 -c "$interruptible" timeout --preserve-status -s INT 6 "$diff_tool" --vl 128 --beside 256 --budget 1000000000000 "$parting" endless
    ended "Ctrl-C" 130 '' ''
    run python3 -c 'import os, pty, signal, sys
signal.signal(signal.SIGINT, signal.SIG_DFL)
sys.exit(os.waitstatus_to_exitcode(pty.spawn(sys.argv[1:])))' \
        timeout --preserve-status -s INT 6 "$diff_tool" --vl 128 --beside 256 --budget 1000000000000 "$parting" endless
    holds "progress on a terminal" grep -Eq 'svemu-diff: the calls at 128 bits: 0 stops, [0-9]+ seconds' "$scratch/output"
}

# Where all lengths end alike, and not by exit 0: by a trap, by a status, or at two lengths that are given.
where_it_traps() {
    parting=$scratch/parting/parting.elf
    run "$diff_tool" "$parting" null
    holds "a trap at all lengths" awk '
        NR == 1 { bad = $0 != "all sixteen lengths end by the same kind of trap, and write the same before" }
        NR == 2 { bad = bad || !/^at 128 bits it ends by trap read 0x8 after [0-9]+ steps, in call 1 of main \(of _start\+0x8\)$/ }
        NR == 3 { bad = bad || !/^by ldr w[0-9]+, .* at main\+0x[0-9a-f]+ \(parting\.c:[0-9]+\)$/ }
        NR == 4 { bad = bad || !/^what to do: .What you see. of docs\/MANUAL\.md has it below .trap read.$/ }
        NR == 5 { bad = bad || !/^draw it: .*svemu-lanes --open --in main --call 1 --vl 128 .*parting\.elf null$/ }
        END { exit bad || NR != 5 }' "$scratch/output"
    holds "its status" [ "$status" -eq 1 ]
    drawn_as_told "$(tail -n 1 "$scratch/output")"
    holds "the steps before it are drawn" sh -c '[ "$1" -eq 0 ] && grep -q "trap read 0x0*8 " "$2"' sh "$status" "$scratch/output"
    run "$diff_tool" --vl 384 --beside 512 "$parting" trap
    holds "a trap at two lengths" sh -c '[ "$1" -eq 1 ] && sed -n 1p "$2" | grep -qx "$3" && grep -Eq "$4" "$2" && grep -q "$5" "$2"' \
        sh "$status" "$scratch/output" "384 and 512 bits don't part: both end by the same kind of trap" \
        '^by brk #0 at broken\+0x[0-9a-f]+ \(parting\.c:[0-9]+\)$' "^what to do: .*below 'trap break'$"
    # Of a word that no compiler's flag makes, and of one in a program that is begun by a C library.
    for start in begin __libc_start_main; do
        printf '__attribute__((noinline)) void %s(void) { __asm__ volatile(".inst 0x4e010c20"); }\nint main(void) { %s(); return 0; }\n' "$start" "$start" \
            >"$scratch/parting/word.c"
        make -s -B -C "$scratch/parting" CC="$compiler" DEBUG=-g SMALL=-Wl,--build-id=none word.elf
        run "$diff_tool" "$scratch/parting/word.elf"
        case $start in
            begin) told="what to do: the word is Advanced SIMD; 'What leaves the table' of docs/TESTING_YOUR_CODE.md says what to do" ;;
            *) told="what to do: link it without its C library, which svemu doesn't run; 'What you need' of docs/TESTING_YOUR_CODE.md says what is in its place" ;;
        esac
        holds "an undefined word in $start" \
            sh -c '[ "$1" -eq 1 ] && grep -Eqx -e "$3" "$2"' sh "$status" "$scratch/output" "$told"
    done
    run "$diff_tool" "$parting" status
    ended "a status that isn't 0" 0 'the output and the ending are the same at all sixteen lengths: exit 3\n' ''
}

# The planted bugs, tested by kernel_test.h itself: each by the step and the instruction that made it, at one length.
what_a_test_found() {
    rm -rf "$scratch/tested"
    mkdir "$scratch/tested"
    cp examples/Makefile examples/start.S examples/*.h examples/prefix_sum.c tests/planted/*.c "$scratch/tested"
    # shellcheck disable=SC2046 # a word an image
    holds "tests of kernels with symbols by $compiler" make -s -C "$scratch/tested" CC="$compiler" DEBUG=-g \
        SMALL="-ffunction-sections -Wl,--gc-sections -Wl,--build-id=none" \
        $(cd "$scratch/tested" && for source in *.c; do echo "${source%.c}.elf"; done)
    grep -v '^#' tests/planted/tells.txt >"$scratch/tells"
    holds "each planted bug has its line of --test" sh -c \
        '[ "$(ls tests/planted/*.c | wc -l)" -eq "$(wc -l <"$1")" ]' sh "$scratch/tells"
    while IFS='|' read -r kernel length told instruction; do
        run "$diff_tool" --test --vl "$length" "$scratch/tested/$kernel.elf"
        holds "the test of $kernel: its instruction" sh -c '[ "$1" -eq 1 ] && grep -Eqx "$3" "$2"' sh "$status" "$scratch/output" \
            "$told ([0-9]+, )?$instruction.* at $kernel\\+0x[0-9a-f]+( \\($kernel\\.c:[0-9]+\\))?(, lane [0-9]+ of its [0-9]+)?(, in call [0-9]+ of $kernel \\(of main\\+0x[0-9a-f]+\\))?"
    done <"$scratch/tells"
    run "$diff_tool" --test "$scratch/tested/no_saturation.elf"
    holds "a test that fails at all lengths" awk '
        NR == 1 { bad = $0 != "the test fails at all sixteen lengths" }
        NR == 2 { bad = bad || !/^at 128 bits no_saturation parts: n 2, guarded at its end, alignment 14, element 0: wanted ff, got 23$/ }
        NR == 4 { bad = bad || !/^draw it: .*svemu-lanes --open --in no_saturation --call 5 --vl 128 .*no_saturation\.elf$/ }
        END { exit bad || NR != 4 }' "$scratch/output"
    run "$diff_tool" --test "$scratch/tested/last_step.elf"
    holds "a test that fails at some" sh -c 'sed -n 1p "$1" | grep -qx "the test fails at 640 to 2048 bits"' sh "$scratch/output"
    run "$diff_tool" "$scratch/tested/last_step.elf"
    holds "what --test is for" sh -c '[ "$1" -eq 1 ] && head -n 1 "$2" | grep -q "^a kernel.s test by kernel_test.h .*: with --test "' sh \
        "$status" "$scratch/output"
    # It is told before the sweep, which takes a while.
    printf '#!/bin/sh\n[ "$1" != sweep ] || exit 120\nexec "%s" "$@"\n' "$built" >"$scratch/no-sweep"
    chmod +x "$scratch/no-sweep"
    run env SVEMU="$scratch/no-sweep" "$diff_tool" "$scratch/tested/last_step.elf"
    holds "what --test is for, before the sweep" sh -c '[ "$1" -eq 2 ] && [ "$(wc -l <"$2")" -eq 1 ] &&
        grep -q "^a kernel.s test by kernel_test.h .*: with --test " "$2" && grep -qx "svemu-diff: there is no memory" "$3"' sh \
        "$status" "$scratch/output" "$scratch/errors"
    run env SVEMU="$scratch/no-sweep" "$diff_tool" --in last_step "$scratch/tested/last_step.elf"
    ended "not where the kernel is named" 2 '' 'svemu-diff: there is no memory\n'
    run "$diff_tool" "$scratch/tested/full_predicate.elf"
    holds "the call that traps is named for svemu-lanes" sh -c 'tail -n 1 "$1" | grep -q "^draw it: .* --in full_predicate --call 3 --vl 128 "' sh "$scratch/output"
    holds "an over-read of a guarded buffer" sh -c '[ "$1" -eq 1 ] && grep -Eqx "$3" "$2" && grep -q "^what to do: .*Over-reads" "$2"' \
        sh "$status" "$scratch/output" '0x[0-9a-f]+000 is 1 byte behind the end of a guarded buffer of 4 bytes'
    run "$diff_tool" --test --vl 256 "$scratch/tested/prefix_sum.elf"
    ended "a test that agrees" 0 'the test fails nowhere at 256 bits\n' ''
    run "$diff_tool" --test "$scratch/tested/prefix_sum.elf"
    ended "a test that agrees at all lengths" 0 'the test fails at none of the sixteen lengths\n' ''
    if ! lacks "a kernel without a symbol" aarch64-linux-gnu-objcopy; then
        aarch64-linux-gnu-objcopy --strip-symbol=last_step "$scratch/tested/last_step.elf" "$scratch/tested/unnamed.elf"
        run "$diff_tool" --test --vl 640 "$scratch/tested/unnamed.elf"
        ended_like "a kernel without a symbol" 2 'svemu-diff: no symbol says that the kernel, at 0x[0-9a-f]+, is a function: .*'
    fi
    run "$diff_tool" --test "$scratch/parting/parting.elf"
    ended "what is no test" 2 '' "svemu-diff: $scratch/parting/parting.elf has no kernel_test_difference: --test is for a kernel's test by kernel_test.h\n"
    run "$diff_tool" --test --beside 256 "$scratch/tested/prefix_sum.elf"
    ended "a test at two lengths" 2 '' 'svemu-diff: --test is for one length, and takes neither --beside nor --in\n'
    run "$diff_tool" --test --vl 100 "$scratch/tested/prefix_sum.elf"
    ended "a test at no length" 2 '' 'svemu-diff: --vl wants a multiple of 128 from 128 to 2048, not 100\n'
}

diff_of_a_stripped_program() {
    run "$diff_tool" examples/lost_sums.elf
    ended "no symbols" 2 '' 'svemu-diff: examples/lost_sums.elf has no symbols of functions: build it without -s, and don'"'"'t strip it\n'
}

diff_refusals() {
    run "$diff_tool"
    ended "two lengths of nothing" 2 '' 'svemu-diff: no program is named (--help shows how)\n'
    run "$diff_tool" --length 5 "$probe"
    ended "an unknown option" 2 '' 'svemu-diff: there is no option --length (--help lists them)\n'
    run "$diff_tool" --vl
    ended "no value" 2 '' 'svemu-diff: --vl wants a value\n'
    run "$diff_tool" "$scratch/nosuch"
    ended "a missing program" 2 '' "svemu-diff: $scratch/nosuch couldn't be read: No such file or directory\n"
    run "$diff_tool" tests/tools.sh
    ended "no ELF file" 2 '' "svemu-diff: svemu-tool says: tests/tools.sh is no ELF file\n"
    program_of_another_machine "$scratch/other.elf"
    run "$diff_tool" "$scratch/other.elf"
    ended "another machine's program" 2 \
        '' "svemu-diff: svemu-tool says: $scratch/other.elf is an x86-64 program: built by the host's compiler?\n"
    for two in "--vl 256" "--beside 256"; do
        # shellcheck disable=SC2086 # words
        run "$diff_tool" $two "$probe"
        ended "$two alone" 2 '' 'svemu-diff: --vl and --beside are given together, or neither is\n'
    done
    run "$diff_tool" --vl 256 --beside 256 "$probe"
    ended "a length beside itself" 2 '' 'svemu-diff: --vl and --beside are both 256\n'
    run "$diff_tool" --vl 256 --beside 200 "$probe"
    ended "no length" 2 '' 'svemu-diff: --beside wants a multiple of 128 from 128 to 2048, not 200\n'
    run "$diff_tool" --vl 256 --beside much "$probe"
    ended "no number" 2 '' 'svemu-diff: --beside wants a multiple of 128 from 128 to 2048, not much\n'
    run "$diff_tool" --budget much "$probe"
    ended "no budget" 2 '' 'svemu-diff: --budget wants a number from 0 to 18446744073709551615, not much\n'
    run env SVEMU="$scratch/nosuch" "$diff_tool" "$probe"
    ended "two lengths without svemu" 2 '' "svemu-diff: there is no program $scratch/nosuch (--help says where it is looked for)\n"
    run "$diff_tool" --help
    holds "the help of svemu-diff" grep -q '^usage: svemu-diff ' "$scratch/output"
}
