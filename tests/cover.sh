# shellcheck shell=sh
# shellcheck disable=SC2154 # tools.sh sets them
# Tests of svemu-cover, what it tells of a program whose tail runs at some lengths only, its page, and what others read of
# its files; and of the steps within functions that svemu-curve draws. tools.sh reads it.

cover=$top/tools/svemu-cover
curve=$top/tools/svemu-curve

covered() {
    lacks "what ran over the lengths" aarch64-linux-gnu-gcc || covered_tail
    covered_stripped
    covered_refusals
}

# A program that is stripped, whose functions the output of nm names.
covered_stripped() {
    run "$cover" --symbols examples/lost_sums.symbols --text - examples/lost_sums.elf
    holds "a stripped program by the output of nm" [ "$status" -eq 0 ]
    holds "its functions" \
        [ "$(grep -Ec '^(main|_start|put_text): [0-9]+ of [0-9]+ instructions ran at each length' "$scratch/output")" -eq 3 ]
    holds "its kernel ran at each length" grep -Eq '^[0-9a-f]{16} #{16} +16-250  ld1w ' "$scratch/output"
    run "$cover" --symbols examples/lost_sums.symbols examples/lost_sums.elf
    cp "$scratch/output" "$scratch/page.html"
    lacks "its page in Chromium, too" chromium || holds "its page in Chromium, too" env SVEMU_TOOL="$tool" timeout 120 \
        python3 tests/coverage.py "$scratch/page.html" examples/lost_sums.elf all
    run "$cover" --symbols "$scratch/empty" examples/lost_sums.elf
    ended_like "no output of nm" 2 'svemu-cover: .*/empty has no line of nm that names code'
}

# A loop over 192 numbers of 32 bits: its tail runs where the lanes don't divide them.
covered_tail() {
    holds "a program with a tail" aarch64-linux-gnu-gcc -O2 -g -march=armv8-a+sve -ffreestanding -nostdlib -static -Iexamples \
        -o "$scratch/tail.elf" examples/start.S tests/covered/tail.c
    run "$cover" --text - "$scratch/tail.elf"
    holds "what ran, as text" [ "$status" -eq 0 ]
    holds "the tail ran at eight lengths" grep -Eq \
        '^  twice[a-z.0-9]*\+0x[0-9a-f]+ to \+0x[0-9a-f]+ \(tail\.c:[0-9-]+\): [0-9]+ instructions ran at 640, 896, 1152 to 1408 and 1664 to 1920 bits only$' \
        "$scratch/output"
    holds "a function of which nothing ran" grep -q '^nothing ran of: .*unused' "$scratch/output"
    run "$cover" --vl 640 --text - --in main "$scratch/tail.elf"
    holds "one function at one length" sh -c 'grep -Eq "^1 function, [0-9]+ instructions: [0-9.]+ % ran at 640 bits$" "$1" && ! grep -q "^twice" "$1"' sh "$scratch/output"
    run "$cover" --least 50 --everywhere 50 "$scratch/tail.elf"
    holds "shares that are met" [ "$status" -eq 0 ]
    cp "$scratch/output" "$scratch/page.html"
    holds "the page names nothing outside of it" sh -c '! grep -Eq "https?:|src=|@import|url\(" "$1"' sh "$scratch/page.html"
    run "$cover" --everywhere 100 "$scratch/tail.elf"
    ended_like "a share that isn't met" 1 'svemu-cover: [0-9.]+ % of the instructions ran at each length, and 100 % were wanted'
    holds "the page is there all the same" cmp "$scratch/output" "$scratch/page.html"
    lacks "its page in Chromium" chromium || holds "its page in Chromium" env SVEMU_TOOL="$tool" timeout 120 python3 tests/coverage.py "$scratch/page.html" "$scratch/tail.elf" all
    run "$cover" --lcov "$scratch/tail.info" --callgrind "$scratch/tail.callgrind" "$scratch/tail.elf"
    holds "files for others" [ "$status" -eq 0 ]
    covered_lines
    lacks "callgrind_annotate reads what it writes" callgrind_annotate ||
        holds "callgrind_annotate reads what it writes" sh -c 'callgrind_annotate "$1" | grep -q "tail.c:twice"' sh "$scratch/tail.callgrind"
    lacks "genhtml reads what it writes" genhtml ||
        holds "genhtml reads what it writes" sh -c 'genhtml --quiet -o "$1" "$2" && grep -rq "tail.c" "$1/index.html" "$1"' sh "$scratch/genhtml" "$scratch/tail.info"
    function=$(aarch64-linux-gnu-nm "$scratch/tail.elf" | sed -n 's/.* t \(twice.*\)/\1/p')
    run "$curve" --in "$function" --in main "$scratch/tail.elf"
    holds "a curve within functions" [ "$status" -eq 0 ]
    cp "$scratch/output" "$scratch/page.html"
    holds "its steps are those that were counted" env SVEMU_TOOL="$tool" python3 tests/within.py "$scratch/page.html" "$scratch/tail.elf" "$function"
    run "$curve" --in nosuch "$scratch/tail.elf"
    ended_like "no such function" 2 'svemu-curve: no function is named nosuch'
    run aarch64-linux-gnu-strip -o "$scratch/stripped.elf" "$scratch/tail.elf"
    run "$cover" "$scratch/stripped.elf"
    ended_like "a file without symbols" 2 'svemu-cover: .* has no symbols of functions: .*'
}

# The line of the tail's store has a count at eight of the sixteen tests, and none at the others.
covered_lines() {
    line=$(grep -n 'svst1(rest' tests/covered/tail.c | cut -d: -f1)
    holds "a test for each length" [ "$(grep -c '^TN:vl_[0-9]*$' "$scratch/tail.info")" -ge 16 ]
    holds "the tail's line" sh -c '[ "$(grep -c "^DA:$1,[1-9]" "$2")" -ge 8 ]' sh "$line" "$scratch/tail.info"
}

covered_refusals() {
    run "$cover"
    ended_like "no program" 2 'svemu-cover: no program is named .*'
    run "$cover" --depth 3 examples/strlen.elf
    ended_like "an option that there isn't" 2 'svemu-cover: there is no option --depth .*'
    run "$cover" --vl 100 "$probe"
    ended "a length that there isn't" 2 '' 'svemu-cover: --vl wants a multiple of 128 from 128 to 2048, not 100\n'
    run env SVEMU_BUDGET=1e9 "$cover" "$probe"
    ended "a variable that is no number" 2 \
        '' 'svemu-cover: SVEMU_BUDGET wants a number from 0 to 18446744073709551615, not 1e9\n'
    run "$cover" --symbols examples/lost_sums.symbols --budget 0 examples/lost_sums.elf
    ended "no steps" 2 '' 'svemu-cover: no instruction of a function ran; the program ended by spent\n'
    run "$cover" README.md
    ended "no program" 2 '' 'svemu-cover: svemu-tool says: README.md is no ELF file\n'
    program_of_another_machine "$scratch/other.elf"
    run "$cover" "$scratch/other.elf"
    ended "another machine's program" 2 \
        '' "svemu-cover: svemu-tool says: $scratch/other.elf is an x86-64 program: built by the host's compiler?\n"
    run "$cover" --least 101 "$probe"
    ended_like "more than all" 2 'svemu-cover: --least wants a number from 0 to 100, not 101'
    run "$cover" "$scratch/nosuch"
    ended_like "no file" 2 'svemu-cover: .*nosuch couldn.t be read.*'
    run env SVEMU_TOOL="$scratch/nosuch" "$cover" "$probe"
    ended_like "no svemu-tool" 2 'svemu-cover: there is no program .*nosuch.*'
    run "$cover" --help
    holds "help" sh -c '[ "$1" -eq 0 ] && grep -q "^usage: svemu-cover" "$2" && grep -q -e "^With --open" "$2"' sh "$status" "$scratch/output"
}
