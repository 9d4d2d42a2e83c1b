# shellcheck shell=sh
# shellcheck disable=SC2016,SC2034,SC2154 # shells that are called expand them; tools.sh reads input and sets the others
# Tests of tools/svemu-runner and tools/svemu-lengths; tools.sh reads it.

# Makes a program that stands for svemu of the lines of its input.
stand_in() {
    { echo '#!/bin/sh' && cat; } >"$scratch/stand-in"
    chmod +x "$scratch/stand-in"
}

# Prints what svemu writes at its end, after this first line.
report() {
    awk -v first="$1" -v vl="$2" '
        function put(name, digits) { printf "%s %0" digits "d\n", name, 0 }
        BEGIN {
            print first
            for (i = 0; i <= 30; i++) put("x" i, 16)
            put("sp", 16); put("pc", 16); put("nzcv", 4); put("tpidr", 16)
            print "vl " vl
            for (i = 0; i <= 31; i++) put("z" i, vl / 4)
            for (i = 0; i <= 15; i++) put("p" i, vl / 32)
            put("ffr", vl / 32)
        }'
}

runner_passes_on() {
    run "$runner" "$probe"
    ended "both files and the status" 3 'to the output\n' 'to the errors\n'
    run "$runner" --vl 256 "$probe" args 'a b' "it's" '"' '' --vl -- '*'
    ended "arguments" 0 'args\na b\nit'"'"'s\n"\n\n--vl\n--\n*\n' ''
    printf 'first\n\377\000last' >"$scratch/input"
    input=$scratch/input
    run "$runner" "$probe" cat
    ended "input" 0 'first\n\377\000last' ''
    input=$scratch/empty
    run "$runner" "$probe" bytes
    awk 'BEGIN { for (i = 0; i < 256; i++) printf "\\%03o", i }' >"$scratch/every-byte"
    ended "every byte on standard error, and no newline at its end" 0 '' "$(cat "$scratch/every-byte")"
    run "$runner" --vl 256 "$probe" report
    ended "errors that look like a report" 0 '' "$(report 'exit 0 after 1 steps' 256)\n"
    run "$runner" "$probe" trap
    ended_like "a trap" 132 'beforesvemu: undefined word 0x[0-9a-f]+ \(.*\) at 0x[0-9a-f]+.*, after [0-9]+ steps'
    run "$runner" --budget 5000 "$probe" spin
    ended_like "a spent budget" 123 'beforesvemu: 5000 steps are spent in 0x[0-9a-f]+.* \(SVEMU_BUDGET gives more\)'
    run "$runner" --quiet --budget 5000 "$probe" spin
    ended "a spent budget that nobody is told of" 123 '' before
    run "$runner" --registers "$scratch/registers" --budget 5000 "$probe" spin
    ended_like "a spent budget where registers are kept" 123 'beforesvemu: 5000 steps are spent in 0x[0-9a-f]+.* \(SVEMU_BUDGET gives more\)'
    run "$runner" --registers "$scratch/registers" --quiet --budget 5000 "$probe" spin
    ended "where nobody is told" 123 '' before
    holds "its registers are kept" grep -qx 'spent after 5000 steps' "$scratch/registers"
    run "$runner" --registers "$scratch/registers" --vl 384 "$probe"
    ended "registers kept" 3 'to the output\n' 'to the errors\n'
    holds "the registers' file has the report" awk 'NR == 1 && /^exit 3 after [0-9]+ steps$/ || NR == 37 && $0 == "vl 384" { n++ } END { exit !(n == 2 && NR == 86) }' "$scratch/registers"
    run "$runner" --registers "$scratch/registers" "$scratch/nosuch"
    holds "no registers of a run that there wasn't" [ ! -s "$scratch/registers" ]
    run env SVEMU_VL=640 "$runner" --registers "$scratch/registers" "$probe"
    holds "the length of SVEMU_VL" grep -qx 'vl 640' "$scratch/registers"
    run "$runner" --registers "$scratch/registers" "$probe"
    holds "512 bits where nothing is said" grep -qx 'vl 512' "$scratch/registers"
    run "$runner" --vl 128 --budget 10000 --threads examples/single_steps.schedule examples/lost_update.elf
    ended "threads" 0 'number 4\n' ''
    run env SVEMU_BUDGET=7 "$runner" "$probe" spin
    ended_like "the budget of SVEMU_BUDGET" 123 'svemu: 7 steps are spent in .*'
    run env SVEMU_VL=640 SVEMU_BUDGET=7 "$runner" --vl 128 --budget 9 "$probe" spin
    ended_like "options before variables" 123 'svemu: 9 steps are spent in .*'
    run env SVEMU_PAGES=10 "$runner" "$probe"
    ended "the pages of SVEMU_PAGES" 122 '' "svemu: $probe needs more pages than it may have (SVEMU_PAGES gives more)\n"
    run "$runner" --pages 10000 "$probe"
    ended "pages that suffice" 3 'to the output\n' 'to the errors\n'
}

# Words to svemu, and errors that svemu itself can't easily be brought to write.
runner_and_stand_ins() {
    echo 'printf "%s|" "$@"; exit 9' | stand_in
    run env SVEMU="$scratch/stand-in" "$runner" p
    ended "words" 9 'run|p|--vl|512|--budget|10000000000|' ''
    run env SVEMU="$scratch/stand-in" "$runner" --pages 7 --budget 5 --vl 128 -- p --x ''
    ended "words with all options" 9 'run|p|--vl|128|--budget|5|--pages|7|--|--x||' ''
    run env SVEMU="$scratch/stand-in" "$runner" -- --p
    ended "a program's name that begins with --" 9 'run|./--p|--vl|512|--budget|10000000000|' ''

    report 'exit 0 after 12 steps' 512 >"$scratch/report"
    printf 'cat "%s" >&2; exit 4' "$scratch/report" | stand_in
    run env SVEMU="$scratch/stand-in" "$runner" p
    ended "a report of another status is the program's own" 4 '' "$(cat "$scratch/report")\n"
    printf 'head -n 85 "%s" >&2; exit 0' "$scratch/report" | stand_in
    run env SVEMU="$scratch/stand-in" "$runner" p
    ended "a report that lacks its last line" 0 '' "$(head -n 85 "$scratch/report")\n"
    report 'exit 0 after 12 steps' 128 >"$scratch/shorter"
    printf 'printf "own\n" >&2; cat "%s" >&2; exit 0' "$scratch/shorter" | stand_in
    run env SVEMU="$scratch/stand-in" "$runner" --vl 256 --registers "$scratch/registers" p
    ended "a report of a length that the program set" 0 '' 'own\n'
    holds "its registers" cmp "$scratch/registers" "$scratch/shorter"
    run env SVEMU="$scratch/stand-in" "$runner" --vl 128 p
    ended "a report of the starting length" 0 '' 'own\n'
    for vl in 128 256 384 512 640 768 896 1024 1152 1280 1408 1536 1664 1792 1920 2048; do
        report 'exit 0 after 12 steps' "$vl" >"$scratch/shorter"
        run env SVEMU="$scratch/stand-in" "$runner" --vl 2048 p
        ended "a report of $vl bits" 0 '' 'own\n'
    done
    printf 'cat "%s" >&2; exit 0' "$scratch/report" | stand_in
    run env SVEMU="$scratch/stand-in" "$runner" --vl 384 p
    ended "a report of a length past the starting one is the program's own" 0 '' "$(cat "$scratch/report")\n"
    printf 'printf "exit 0 after " >&2; cat "%s" >&2; exit 0' "$scratch/report" | stand_in
    run env SVEMU="$scratch/stand-in" "$runner" p
    ended "errors that break off within a first line" 0 '' 'exit 0 after '
    printf 'cat "%s" "%s" >&2; exit 0' "$scratch/report" "$scratch/report" | stand_in
    run env SVEMU="$scratch/stand-in" "$runner" p
    ended "a report behind another" 0 '' "$(cat "$scratch/report")\n"
    for _ in 1 2 3 4 5 6 7 8 9 10 11 12 13 14 15 16 17 18 19 20 21 22 23 24 25 26 27 28 29 30; do cat "$probe"; done >"$scratch/images"
    printf 'cat "%s" "%s" >&2; exit 0' "$scratch/images" "$scratch/report" | stand_in
    run env SVEMU="$scratch/stand-in" "$runner" p
    holds "thirty images on standard error" cmp "$scratch/errors" "$scratch/images"
}

# Waits until a command succeeds, for at most ten seconds.
soon() {
    for _ in 1 2 3 4 5 6 7 8 9 10 11 12 13 14 15 16 17 18 19 20; do
        ! "$@" || return 0
        sleep 0.5
    done
    return 1
}

runner_in_time() {
    mkfifo "$scratch/answers"
    timeout 120 "$runner" "$probe" ask <"$scratch/answers" >"$scratch/output" 2>"$scratch/errors" &
    child=$!
    exec 4>"$scratch/answers"
    holds "a question is shown before it is answered" soon grep -qx 'what is it? ' "$scratch/errors"
    echo yellow >&4
    exec 4>&-
    wait "$child"
    status=$?
    ended "a question and its answer" 0 'yellow\n' 'what is it? '

    printf 'echo "$$" >"%s"; printf begin >&2; exec sleep 100' "$scratch/id" | stand_in
    for case in "TERM 143" "HUP 129"; do
        signal=${case% *}
        # The shell that sees it end would say so, too.
        if [ "$({ sh -c "kill -s $signal \$\$; echo ignored"; } 2>/dev/null)" = ignored ]; then
            skip "ended by SIG$signal" "it is ignored here, as under nohup"
            continue
        fi
        rm -f "$scratch/id"
        SVEMU=$scratch/stand-in "$runner" p >"$scratch/output" 2>"$scratch/errors" &
        child=$!
        soon test -s "$scratch/id"
        since=$(date +%s)
        kill -s "$signal" "$child"
        wait "$child" 2>/dev/null
        status=$?
        holds "SIG$signal is passed on at once" [ $(($(date +%s) - since)) -lt 50 ]
        ended "ended by SIG$signal" "${case#* }" '' begin
        holds "svemu ends by SIG$signal" sh -c '! kill -s 0 "$(cat "$1")"' sh "$scratch/id"
    done
    run timeout 3 "$runner" "$probe" spin
    ended "a signal to the runner, svemu and the filter at once" 124 '' before
    mkdir "$scratch/tmp"
    run env TMPDIR="$scratch/tmp" "$runner" "$probe" args
    holds "nothing is left in TMPDIR" rmdir "$scratch/tmp"
}

runner_refusals() {
    run "$runner" "$scratch/nosuch.elf"
    ended "a missing program" 126 '' "svemu: $scratch/nosuch.elf isn't there, or can't be read\n"
    for vl in 192 0 2176; do
        run "$runner" --vl "$vl" "$probe"
        ended "the length $vl" 121 '' "svemu: --vl is '$vl': it may be a multiple of 128 from 128 to 2048\n"
    done
    run "$runner" --vl wide "$probe"
    ended "a length that is no number" 121 '' "svemu: --vl is 'wide': it may be a multiple of 128 from 128 to 2048\n"
    run "$runner" --vl '' "$probe"
    ended "an empty length" 121 '' "svemu: --vl is '': it may be a multiple of 128 from 128 to 2048\n"
    run "$runner" --budget -1 "$probe"
    ended "a negative budget" 121 '' "svemu: --budget is '-1': it may be a number from 0 to 18446744073709551615\n"
    run "$runner" --pages 0 "$probe"
    ended "no pages" 121 '' "svemu: --pages is '0': it may be a number from 1 to 1048576\n"
    run "$runner" README.md
    ended "a file that is no image" 122 '' 'svemu: README.md is no ELF file\n'
    run "$runner"
    ended "no program" 121 '' 'svemu: the command line names no program\n'
    run "$runner" --vl
    ended "an option without its value" 121 '' 'svemu: --vl is an option without a value\n'
    run "$runner" --length 128 "$probe"
    ended "an unknown option" 121 '' 'svemu: --length is no option of run: see svemu-tool --help\n'
    run "$runner" --registers "$scratch/registers" --length 128 "$probe"
    ended "an unknown option beside registers" 121 '' 'svemu: --length is no option of run: see svemu-tool --help\n'
    run env SVEMU_TOOL="$scratch/nosuch" "$runner" "$probe"
    ended "no svemu-tool" 126 '' "svemu-runner: there is no program $scratch/nosuch (--help says where it is looked for)\n"
    run "$runner" --registers "$scratch/no/such" "$probe"
    ended "registers that can't be written" 125 '' "svemu: $scratch/no/such can't be written\n"
    run env SVEMU="$scratch/nosuch" "$runner" "$probe"
    ended "no svemu" 126 '' "svemu-runner: there is no program $scratch/nosuch (--help says where it is looked for)\n"
    run env SVEMU="$scratch/stand-in" TMPDIR="$scratch/nosuch" "$runner" --registers "$scratch/registers" p
    ended "no folder for the runner's files" 125 '' "svemu-runner: no folder could be made in $scratch/nosuch\n"
    run sh -c '"$1" "$2" >/dev/full' sh "$runner" "$probe"
    holds "an output that can't be written" [ "$status" -eq 125 ]
    run sh -c '"$1" --registers "$3" "$2" >/dev/full' sh "$runner" "$probe" "$scratch/registers"
    ended "an output that can't be written, where registers are kept" 125 '' "svemu: the output can't be written\n"
    run sh -c '"$1" "$2" 2>/dev/full' sh "$runner" "$probe"
    ended "errors that can't be passed on" 125 'to the output\n' ''
    input=$scratch
    run "$runner" "$probe" cat
    holds "an input that can't be read" [ "$status" -eq 124 ]
    run "$runner" --registers "$scratch/registers" "$probe" cat
    input=$scratch/empty
    ended "an input that can't be read, where registers are kept" 124 '' "svemu: the input can't be read\n"
    run "$runner" --help
    holds "help" grep -q '^usage: svemu-runner' "$scratch/output"
}

runner_from_elsewhere() {
    odd="$scratch/it's a \"folder\""
    mkdir -p "$odd/bin"
    cp "$probe" "$odd/a program's \"image\""
    ln -s "$runner" "$odd/bin/first link"
    ln -s "first link" "$odd/bin/second link"
    cp "$runner" "$odd/bin/copy"
    # The script's own folder is looked through only where SVEMU isn't set.
    printf '#!/bin/sh\nexec "%s" "$@"\n' "$top/svemu-tool" >"$odd/svemu-tool"
    chmod +x "$odd/svemu-tool"
    cd "$odd" || exit 1
    run "./bin/second link" "a program's \"image\"" args x
    ended "by links, and from a folder with blanks and quotes" 0 'args\nx\n' ''
    run env -u SVEMU bin/copy "$odd/a program's \"image\"" args y
    ended "svemu-tool in the folder above" 0 'args\ny\n' ''
    run env -u SVEMU PATH="$odd/bin:$PATH" sh -c 'mv svemu-tool bin/svemu-tool && copy "$1" args z' sh "a program's \"image\""
    ended "svemu-tool beside the script, by PATH" 0 'args\nz\n' ''
    run env -u SVEMU PATH="$odd/bin:$PATH" sh -c 'mv bin/copy . && ./copy "$1" args z' sh "a program's \"image\""
    ended "svemu-tool in PATH" 0 'args\nz\n' ''
    run env -u SVEMU PATH="/usr/bin:/bin" ./copy "a program's \"image\""
    ended_like "no svemu-tool anywhere" 126 'svemu-runner: there is no svemu-tool, and no svemu-filter beside this script .*'
    run env TMPDIR="$odd" "$runner" --registers "$odd/registers" "a program's \"image\""
    ended "a TMPDIR with blanks and quotes" 3 'to the output\n' 'to the errors\n'
    cd "$top" || exit 1
}

over_lengths() {
    run "$lengths" examples/lost_sums.elf
    awk 'BEGIN {
        for (vl = 128; vl <= 2048; vl += 128)
            print vl, vl == 128 || vl == 256 || vl == 640 || vl == 1280 ? "same" : "parts at 4"
    }' >"$scratch/wanted"
    sed -E 's/^vl ([0-9]+) exit 0 after [0-9]+ steps out 11 err 0 /\1 /' "$scratch/output" >"$scratch/got"
    holds "a bug at some lengths" cmp "$scratch/got" "$scratch/wanted"
    holds "its status is 1" [ "$status" -eq 1 ]
    holds "the first length that fails" \
        grep -qx 'svemu-lengths: examples/lost_sums.elf: at 384 bits its output parts from that at 128 bits at byte 4' "$scratch/errors"
    printf 12345 >"$scratch/input"
    input=$scratch/input
    run "$lengths" "$probe" cat
    input=$scratch/empty
    holds "the input at each length" awk '!/^vl [0-9]+ exit 0 after [0-9]+ steps out 5 err 0 same$/ { bad = 1 } END { exit bad || NR != 16 }' "$scratch/output"
    holds "its status is 0" [ "$status" -eq 0 ]
    run "$lengths" "$probe" trap
    holds "traps, and bytes on standard error" awk '!/^vl [0-9]+ trap undefined 0x[0-9a-f]+ at 0x[0-9a-f]+ after [0-9]+ steps out 0 err 6 same$/ { bad = 1 } END { exit bad || NR != 16 }' "$scratch/output"
    holds "their status is 1" [ "$status" -eq 1 ]
    holds "the length of the first trap" \
        grep -qE "^svemu-lengths: $probe: at 128 bits it ends by trap undefined 0x[0-9a-f]+ at 0x[0-9a-f]+, and not by exit 0\$" "$scratch/errors"
    run "$lengths" --budget 5000 "$probe" spin
    holds "a spent budget at each length" [ "$status" -eq 1 ]
    holds "its line" grep -qx "svemu-lengths: $probe: at 128 bits it ends by spent, and not by exit 0" "$scratch/errors"
    run "$lengths" "$probe"
    holds "a status that isn't wanted" [ "$status" -eq 1 ]
    holds "the line of that" \
        grep -qx "svemu-lengths: $probe: at 128 bits it ends by exit 3, and not by exit 0" "$scratch/errors"
    run "$lengths" --status 3 "$probe"
    holds "a status that is wanted" [ "$status" -eq 0 ]
    holds "no line of that" [ ! -s "$scratch/errors" ]
    printf 'rdvl x0, #1\nmov x8, #93\nsvc #0\n' >"$scratch/vector_length.s"
    "$built" asm "$scratch/vector_length.s" >"$scratch/vector_length.elf"
    run "$lengths" "$scratch/vector_length.elf"
    holds "an ending at each length" awk '$2 != 8 * $4 && $2 != 2048 || !/ after 3 steps out 0 err 0 same$/ { bad = 1 } END { exit bad || NR != 16 }' "$scratch/output"
    holds "its status is 1 too" [ "$status" -eq 1 ]
    # Of an svemu that goes on behind its first line, and then is killed within its second.
    printf '#!/bin/sh\necho "vl 128 exit 0 after 1 steps out 0 err 0 same"\nread -r line\nprintf "vl 25"\nkill -s KILL "$$"\n' >"$scratch/stand-in"
    chmod +x "$scratch/stand-in"
    mkfifo "$scratch/going"
    env SVEMU="$scratch/stand-in" timeout 120 "$lengths" "$probe" <"$scratch/going" >"$scratch/output" 2>"$scratch/errors" &
    child=$!
    exec 4>"$scratch/going"
    holds "a line is shown as it comes" soon grep -qx 'vl 128 exit 0 after 1 steps out 0 err 0 same' "$scratch/output"
    echo >&4
    exec 4>&-
    wait "$child"
    holds "svemu is killed within a line" sh -c '[ "$1" -eq 137 ] && [ "$(tail -n 1 "$2")" = "vl 25" ]' sh "$?" "$scratch/output"
    run sh -c '"$1" "$2" >/dev/full' sh "$lengths" "$probe"
    ended "lines that can't be written" 125 '' ''
    cd "$scratch" || exit 1
    ln -s "$lengths" "a link"
    run "./a link" "$probe"
    cd "$top" || exit 1
    holds "by a link" awk '!/^vl [0-9]+ exit 3 after [0-9]+ steps out 14 err 14 same$/ { bad = 1 } END { exit bad || NR != 16 }' "$scratch/output"
    run "$lengths" "$scratch/nosuch"
    ended "a missing program at all lengths" 126 '' "svemu-lengths: $scratch/nosuch couldn't be read\n"
    run "$lengths" "$scratch/empty"
    ended "no program at all lengths" 122 '' "refused image TooShort\nsvemu-lengths: $scratch/empty is no ELF file\n"
    program_of_another_machine "$scratch/other.elf"
    run "$lengths" "$scratch/other.elf"
    ended "another machine's program at all lengths" 122 '' \
        "refused image BadMachine\nsvemu-lengths: $scratch/other.elf is an x86-64 program: built by the host's compiler?\n"
    run "$lengths" --pages 5 "$probe"
    ended "too few pages at all lengths" 122 '' \
        "refused image TooManyPages\nsvemu-lengths: $probe needs more pages than it may have (SVEMU_PAGES gives more)\n"
    cp "$built" "$scratch/svemu-alone"
    run env SVEMU="$scratch/svemu-alone" PATH=/usr/bin:/bin "$lengths" "$scratch/empty"
    ended "without svemu-tool" 122 \
        '' "refused image TooShort\nsvemu-lengths: svemu-runner tells what $scratch/empty is\n"
    run env SVEMU="$scratch/nosuch" "$lengths" "$probe"
    ended "no svemu at all lengths" 126 \
        '' "svemu-lengths: there is no program $scratch/nosuch (svemu-runner --help says where it is looked for)\n"
    for budget in x '' -1 1e9 010 18446744073709551616 99999999999999999999 100000000000000000000; do
        run "$lengths" --budget "$budget" "$probe"
        ended "the budget '$budget'" 121 \
            '' "svemu-lengths: --budget is '$budget': it may be a number from 0 to 18446744073709551615\n"
    done
    run "$lengths" --status 3 --budget 18446744073709551615 "$probe"
    holds "the greatest budget" [ "$status" -eq 0 ]
    run env SVEMU_BUDGET=x "$lengths" "$probe"
    ended "the variable's budget" 121 '' "svemu-lengths: SVEMU_BUDGET is 'x': it may be a number from 0 to 18446744073709551615\n"
    for pages in x '' 0 1048577 99999999999; do
        run "$lengths" --budget 5 --pages "$pages" "$probe"
        ended "the pages '$pages'" 121 '' "svemu-lengths: --pages is '$pages': it may be a number from 1 to 1048576\n"
    done
    run env SVEMU_PAGES=x "$lengths" "$probe"
    ended "the variable's pages" 121 '' "svemu-lengths: SVEMU_PAGES is 'x': it may be a number from 1 to 1048576\n"
    run "$lengths" --budget=5 "$probe"
    ended "an option and its value as one word" 121 \
        '' 'svemu-lengths: --budget and its value are two words: --budget 5\n'
    run "$lengths" --status 256 "$probe"
    ended "a status past 255" 121 '' "svemu-lengths: --status is '256': it may be 0 to 255\n"
    run "$lengths" --length 128 "$probe"
    ended "an unknown option of the lengths" 121 '' 'svemu-lengths: there is no option --length (--help lists them)\n'
    run "$lengths" --status
    ended "an option of the lengths without its value" 121 '' 'svemu-lengths: --status wants a value\n'
    run "$lengths" --help
    holds "help of the lengths" grep -q '^usage: svemu-lengths' "$scratch/output"
    run "$lengths"
    ended "lengths of no program" 121 '' 'svemu-lengths: no program is named (--help shows how)\n'
}
