#!/bin/sh
# Tests what stands beside the proved program: its start and its release, the cases over real files, the examples, those
# of several threads under schedules, the listings, what the documents show, the runner, the manual page, the
# installation, the recipes of docs/TESTING_YOUR_CODE.md, refused memory and random input; or the parts that are named
# alone. The program is the one that SVEMU names, else the one that ./svemu runs, and svemu-tool that which SVEMU_TOOL
# names, else the one that ./svemu-tool runs; no kit is needed. Each part has a line with its seconds, and what is skipped
# a line that says why and what to install; on a terminal a line also says when a part begins. The last line is 'N passed,
# M failed, K skipped'.
set -u

usage() {
    cat <<'TEXT'
usage: tests/tools.sh [PART ..]

Tests what stands beside the proved program, all parts or those that are named, each by its title as one word. The parts:

TEXT
    sed -n 's/^    part "\([^"]*\)".*/  \1/p' tests/tools.sh
    printf '\nstatus: 0 where no test fails, else 1; 2 where a part is named that there is not\n'
}

cd "$(dirname "$0")/.." || exit 1
case ${1-} in
    --help)
        usage
        exit 0
        ;;
esac
for title in "$@"; do
    grep -Fq "    part \"$title\" " tests/tools.sh || {
        echo "tools.sh: there is no part '$title' (--help lists them)" >&2
        exit 2
    }
done
only=$(printf '%s\n' "$@")
top=$(pwd)
built=${SVEMU:-$(./svemu --program || { ./svemu --build && ./svemu --program; })}
tool=${SVEMU_TOOL:-$(./svemu-tool --program || { ./svemu-tool --build && ./svemu-tool --program; })}
SVEMU=${SVEMU:-$top/svemu}
export SVEMU
unset SVEMU_VL SVEMU_BUDGET SVEMU_PAGES SVEMU_TOOL
runner=$top/tools/svemu-runner
lengths=$top/tools/svemu-lengths
probe=$top/tests/probe.elf
passed=0
failed=0
skipped=0

scratch=$(mktemp -d) || exit 1
trap 'rm -rf "$scratch"' EXIT
trap 'exit 1' HUP INT TERM
: >"$scratch/empty"
input=$scratch/empty

# Runs a command for at most two minutes, with the file "input"; keeps its output, its errors and its status.
run() {
    timeout 120 "$@" <"$input" >"$scratch/output" 2>"$scratch/errors"
    status=$?
}

pass() {
    passed=$((passed + 1))
}

fail() {
    failed=$((failed + 1))
    echo "FAILED: $1: $2"
}

skip() {
    skipped=$((skipped + 1))
    echo "skipped: $1: $2"
}

# The packages of Debian that have commands which aren't there.
packages_of() {
    for word in "$@"; do
        case $word in
            aarch64-linux-gnu-gcc) echo gcc-aarch64-linux-gnu ;;
            aarch64-linux-gnu-g++) echo g++-aarch64-linux-gnu ;;
            aarch64-linux-gnu-*) echo binutils-aarch64-linux-gnu ;;
            ld.lld) echo lld ;;
            qemu-aarch64) echo qemu-user ;;
            man) echo man-db ;;
            callgrind_annotate) echo valgrind ;;
            genhtml) echo lcov ;;
            llvm-addr2line) echo llvm ;;
            ctest) echo cmake ;;
            cc) echo gcc ;;
            *) echo "$word" ;;
        esac
    done | sort -u
}

# Whether some of these commands aren't on this machine: then the part is skipped, and what to install is told.
lacks() {
    lacking=$1
    shift
    absent=$(for word in "$@"; do command -v "$word" >/dev/null || echo "$word"; done)
    [ -n "$absent" ] || return 1
    # shellcheck disable=SC2046,SC2086 # words
    set -- $(packages_of $absent)
    to_install="${to_install:-} $*"
    # shellcheck disable=SC2086
    skip "$lacking" "without $(echo $absent | sed 's/ /, /g'), which Debian has in $*"
}

# Runs a part of the tests, says how it went and how long it took, and on a terminal, before that, which one it is.
part() {
    part_title=$1
    [ -z "$only" ] || printf '%s\n' "$only" | grep -Fqx -e "$part_title" || return 0
    shift
    part_number=$((${part_number:-0} + 1))
    [ ! -t 1 ] || echo "part $part_number of $parts: $part_title .."
    part_before="$passed $failed $skipped"
    part_began=$(date +%s)
    "$@"
    # shellcheck disable=SC2086 # three numbers
    told_part $part_before
}

told_part() {
    part_line="$part_title: $((passed - $1)) passed"
    [ "$failed" -eq "$2" ] || part_line="$part_line, $((failed - $2)) failed"
    [ "$skipped" -eq "$3" ] || part_line="$part_line, $((skipped - $3)) skipped"
    part_seconds=$(($(date +%s) - part_began))
    seconds=seconds
    [ "$part_seconds" -ne 1 ] || seconds=second
    echo "$part_line, $part_seconds $seconds"
}

# Whether a command succeeds.
holds() {
    name=$1
    shift
    if "$@" >"$scratch/said" 2>&1; then
        pass
    else
        fail "$name" "$* said: $(head -c 500 "$scratch/said")"
    fi
}

# Whether the last run ended with this status, this output and these errors (as printf writes them).
ended() {
    # shellcheck disable=SC2059 # they are formats
    printf "$3" >"$scratch/wanted-output"
    # shellcheck disable=SC2059
    printf "$4" >"$scratch/wanted-errors"
    if [ "$status" -ne "$2" ]; then
        fail "$1" "status $status, not $2; errors: $(head -c 300 "$scratch/errors")"
    elif ! cmp -s "$scratch/output" "$scratch/wanted-output"; then
        fail "$1" "output: $(head -c 300 "$scratch/output")"
    elif ! cmp -s "$scratch/errors" "$scratch/wanted-errors"; then
        fail "$1" "errors: $(head -c 300 "$scratch/errors")"
    else
        pass
    fi
}

# Whether the last run ended with this status, and its errors are one line that matches.
ended_like() {
    if [ "$status" -eq "$2" ] && [ "$(wc -l <"$scratch/errors")" -eq 1 ] && grep -Eqx -e "$3" "$scratch/errors"; then
        pass
    else
        fail "$1" "status $status, not $2, or errors: $(head -c 300 "$scratch/errors")"
    fi
}

# Writes a program as the host's compiler makes them: the tests' own with the number of x86-64, 62, as its machine.
program_of_another_machine() {
    { head -c 18 "$probe" && printf '\76\0' && tail -c +21 "$probe"; } >"$1"
}

# Whether each example writes what stands beside it.
examples() {
    for example in memcpy strlen dot_product histogram lost_sums set_length prefix_sum; do
        for vl in 128 384 2048; do
            wanted=$top/examples/$example.$vl.out
            [ -f "$wanted" ] || wanted=$top/examples/$example.out
            run "$runner" --vl "$vl" "$1/$example.elf"
            if [ "$status" -eq 0 ] && cmp -s "$scratch/output" "$wanted" && [ ! -s "$scratch/errors" ]; then
                pass
            else
                fail "$2 $example at $vl" "status $status, output: $(head -c 200 "$scratch/output"), errors: $(head -c 200 "$scratch/errors")"
            fi
        done
    done
}

# README's commands for a program of one's own, as they stand there, by this compiler; and the tools that want symbols.
own_kernel() {
    rm -rf "$scratch/own"
    mkdir -p "$scratch/own/bin"
    ln -s "$top/tools" "$scratch/own"
    cp -R examples "$scratch/own"
    # In the place of a browser.
    ln -s "$(command -v true)" "$scratch/own/bin/xdg-open"
    awk '/This builds and runs a copy of an example:$/ { near = 1; next } near && /^    / { within = 1; print substr($0, 5); next }
        within { exit }' README.md | sed '/^apt install/d' >"$scratch/commands"
    [ "$1" != clang ] || sed -i 's/^[^#]*# or: //' "$scratch/commands"
    cd "$scratch/own" || exit 1
    run env SVEMU_TOOL="$tool" sh -eu "$scratch/commands"
    holds "a program of one's own by $1" sh -c '[ "$1" -eq 0 ] && grep -qx "dot_product agrees" "$2" &&
        [ "$(grep -cE "^vl [0-9]+ exit 0 after [0-9]+ steps out 38 err 0 same$" "$2")" -eq 16 ]' sh "$status" "$scratch/output"
    if ! lacks "symbols of a program of one's own" python3; then
        run tools/svemu-diff made/mine.elf
        ended "its lengths don't part" 0 "a kernel's test by kernel_test.h takes other counts at other lengths: with --test svemu-diff tells which step made one fail
the output and the ending are the same at all sixteen lengths
" ''
        run env PATH="$scratch/own/bin:$PATH" XDG_CACHE_HOME="$scratch/own/cache" SVEMU="$built" SVEMU_TOOL="$tool" tools/svemu-cover --open made/mine.elf
        holds "what ran of it is drawn" sh -c 'cat "$3"; [ "$1" -eq 0 ] && grep -q "dot_product" "$2"/cache/svemu/pages/*.html' sh "$status" "$scratch/own" "$scratch/errors"
    fi
    cd "$top" || exit 1
}

builds() {
    for compiler in aarch64-linux-gnu-gcc clang; do
        case $compiler in
            clang) needed="clang ld.lld" ;;
            *) needed=$compiler ;;
        esac
        # shellcheck disable=SC2086 # words
        ! lacks "examples built by $compiler" $needed || continue
        rm -rf "$scratch/examples"
        cp -R examples "$scratch/examples"
        rm "$scratch"/examples/*.elf
        case $compiler in
            clang) holds "examples built by clang" make -C "$scratch/examples" CC=clang CXX=clang++ ;;
            *) holds "examples built by $compiler" make -C "$scratch/examples" ;;
        esac
        own_kernel "$compiler"
        examples "$scratch/examples" "built by $compiler:"
        threaded "$scratch/examples" "built by $compiler:"
        structures "$scratch/examples" "built by $compiler:"
    done
}

# Whether a person at a terminal who gives no command is told of --help, behind what the program says, and nobody else.
told_of_help() {
    for words in "" "-h" "run" "run --help" "sweep -h" "nosuch $probe"; do
        # shellcheck disable=SC2086 # words
        run "$2" $words
        cp "$scratch/errors" "$scratch/refusal"
        ended_like "$1: '$words' is refused" 121 'refused words [A-Za-z]+ at [0-9]'
        ! lacks "on a terminal" python3 || continue
        echo "svemu: $2 --help lists the commands" >>"$scratch/refusal"
        # shellcheck disable=SC2086
        run python3 tests/terminal.py "$2" $words
        # shellcheck disable=SC2016 # the inner shell expands them
        holds "$1: '$words' on a terminal" sh -c '[ "$1" -eq 121 ] && cmp "$2" "$3"' sh "$status" "$scratch/output" "$scratch/refusal"
    done
}

# Whether a person at a terminal is told where the manual has what is refused, and nobody else; and whether nothing is
# said of a program's own status, and a pipe is read once.
told_of_manual() {
    manual=$top/docs/MANUAL.md
    while IFS='|' read -r status_wanted refusal told words; do
        # shellcheck disable=SC2086 # words
        run ./svemu $words
        printf '%s' "${refusal:+$refusal
}" >"$scratch/refusal"
        holds "'$words' is refused" \
            sh -c '[ "$1" -eq "$2" ] && cmp "$3" "$4"' sh "$status" "$status_wanted" "$scratch/errors" "$scratch/refusal"
        echo "svemu: $told" >>"$scratch/refusal"
        # shellcheck disable=SC2086
        run python3 tests/terminal.py ./svemu $words
        holds "'$words' on a terminal" \
            sh -c '[ "$1" -eq "$2" ] && diff "$3" "$4"' sh "$status" "$status_wanted" "$scratch/output" "$scratch/refusal"
    done <<END
121|refused words BadLength at 3|'Refused lines' of $manual says what that is, and what to do|run $probe --vl 100 --budget 1
121|refused words BadNumber at 5|'Refused lines' of $manual says what that is, and what to do|run $probe --vl 128 --budget 1e9
121|refused words MissingBudget at 2|'Refused lines' of $manual says what that is, and what to do|sweep $probe
121|refused words BadNumber at 1|'Refused lines' of $manual says what that is, and what to do|load x
122|refused image BadMagic|'What you see' of $manual says what that is, and what to do|run README.md --budget 100000000 --vl 128
122|refused image TooManyPages|'What you see' of $manual says what that is, and what to do|run $probe --budget 5 --vl 128 --pages 3
122|refused image BadMagic|'What you see' of $manual says what that is, and what to do|dis README.md
122|refused schedule BadNumber at line 3|'What you see' of $manual says what that is, and what to do|threads $probe README.md --vl 128 --budget 5
126||a file isn't there, or can't be read ('What you see' of $manual)|run $scratch/nosuch --vl 128 --budget 5
126||a file isn't there, or can't be read ('What you see' of $manual)|asm $scratch/nosuch
END
    printf 'mov x0, #122\nmov x8, #93\nsvc #0\n' >"$scratch/own.s"
    "$built" asm "$scratch/own.s" >"$scratch/own.elf"
    run python3 tests/terminal.py ./svemu run "$scratch/own.elf" --vl 128 --budget 100
    holds "a program's own status on a terminal" \
        sh -c '[ "$1" -eq 122 ] && head -n 1 "$2" | grep -qx "exit 122 after 3 steps" &&
        [ "$(wc -l <"$2")" -eq 86 ]' sh "$status" "$scratch/output"
    rm -f "$scratch/turns-once"
    mkfifo "$scratch/turns-once"
    echo '0 1' >"$scratch/turns-once" &
    run timeout 20 python3 tests/terminal.py ./svemu threads "$scratch/own.elf" "$scratch/turns-once" --vl 128 --budget 100
    wait
    holds "a pipe is read once" \
        sh -c '[ "$1" -eq 122 ] && head -n 1 "$2" | grep -qx "exit 122 after 3 steps"' sh "$status" "$scratch/output"
}

# The tools that were installed, by the program that was.
installed_tools() {
    ! lacks "the installed tools" python3 || return 0
    run env -u SVEMU "$prefix/bin/svemu-lanes" --vl 256 examples/lost_sums.elf
    holds "the installed svemu-lanes" sh -c '[ "$1" -eq 0 ] && grep -q "<html" "$2"' sh "$status" "$scratch/output"
    run env -u SVEMU "$prefix/bin/svemu-cover" --symbols examples/lost_sums.symbols examples/lost_sums.elf
    holds "the installed svemu-cover" sh -c '[ "$1" -eq 0 ] && grep -q "<html" "$2"' sh "$status" "$scratch/output"
    run env -u SVEMU "$prefix/bin/svemu-curve" examples/lost_sums.elf
    holds "the installed svemu-curve" sh -c '[ "$1" -eq 0 ] && grep -q "<html" "$2"' sh "$status" "$scratch/output"
    run env -u SVEMU "$prefix/bin/svemu-schedules" 3 examples/treiber_stack.elf
    cp "$scratch/output" "$scratch/by-installed"
    run env -u SVEMU tools/svemu-schedules 3 examples/treiber_stack.elf
    holds "the installed svemu-schedules" cmp "$scratch/output" "$scratch/by-installed"
    run env -u SVEMU "$prefix/bin/svemu-diff" examples/lost_sums.elf
    ended "the installed svemu-diff" 2 '' 'svemu-diff: examples/lost_sums.elf has no symbols of functions: build it without -s, and don'"'"'t strip it\n'
    holds "no compiled modules are left" [ ! -d "$prefix/lib/svemu/__pycache__" ]
}

# What the manual page shows of a build, with what was installed alone.
installed_example() {
    ! lacks "the manual page's example" aarch64-linux-gnu-gcc || return 0
    mkdir -p "$scratch/page"
    sed -n '/^Build a program that svemu runs/,/^\.fi$/{/^\.\|^Build/!p;}' "$prefix/share/man/man1/svemu.1" |
        sed 's/\\-/-/g; s/\\e/\\/g; s/\\(aq/'"'"'/g' >"$scratch/page/example"
    run env -u SVEMU PATH="$prefix/bin:$PATH" sh -c 'cd "$1" && . ./example' sh "$scratch/page"
    ended "the manual page's example" 0 'bytes of a vector: 64\n' ''
}

# What svemu-tool says of the failures that beginners meet.
beginners() {
    ! lacks "the failures that beginners meet" aarch64-linux-gnu-gcc || return 0
    holds "the failures that beginners meet" sh tests/failures.sh "$tool"
}

help_here() {
    if ! ./svemu --program >/dev/null 2>&1; then
        skip "who is told of --help" "there is no program of these sources"
        return
    fi
    told_of_help "here" ./svemu
    lacks "on a terminal" python3 || told_of_manual
}

# That what a start takes is printed, whatever it is.
times_of_a_start() {
    ! lacks "what a start takes" python3 || return 0
    if ! ./svemu --program >/dev/null 2>&1; then
        skip "what a start takes" "there is no program of these sources"
        return
    fi
    run env -u SVEMU sh tests/times.sh 1
    holds "what a start takes" sh -c '[ "$1" -eq 0 ] && [ "$(grep -c " ms, .*; wanted are [0-9]*$" "$2")" -eq 4 ] &&
        grep -q "^200 schedules .* s; wanted are 1.5$" "$2"' sh "$status" "$scratch/output"
    for words in 0 x "1 2"; do
        # shellcheck disable=SC2086 # words
        run sh tests/times.sh $words
        ended_like "times of '$words' runs" 2 'times.sh: .*number of runs .*--help shows how.*'
    done
}

installation() {
    prefix="$scratch/it's \"a prefix\""
    run make install PREFIX="$prefix" PROGRAM="$built" TOOL="$tool"
    holds "make install" [ "$status" -eq 0 ]
    run env -u SVEMU "$prefix/bin/svemu-runner" "$probe"
    ended "the installed runner runs the installed program" 3 'to the output\n' 'to the errors\n'
    run "$prefix/bin/svemu" run "$probe" --vl 128 --budget 0
    holds "the installed program" sh -c "[ $status -eq 123 ] && grep -qx 'spent after 0 steps' '$scratch/errors'"
    run "$prefix/bin/svemu-tool" run "$probe"
    ended "the installed svemu-tool" 3 'to the output\n' 'to the errors\n'
    run env -u SVEMU "$prefix/bin/svemu-runner" --registers "$scratch/registers" "$probe"
    ended "the installed runner with registers" 3 'to the output\n' 'to the errors\n'
    holds "their file" grep -qx 'vl 512' "$scratch/registers"
    for page in svemu.1 svemu-tool.1; do
        holds "the installed manual page $page" cmp "docs/$page" "$prefix/share/man/man1/$page"
    done
    run "$prefix/bin/svemu-lengths" "$probe"
    holds "the installed lengths" awk '/^vl [0-9]+ exit 3 / { n++ } END { exit n != 16 }' "$scratch/output"
    told_of_help "installed" "$prefix/bin/svemu"
    installed_tools
    installed_example
    run make uninstall PREFIX="$prefix"
    holds "make uninstall" sh -c '[ "$1" -eq 0 ] && [ -z "$(find "$2" ! -type d)" ]' sh "$status" "$prefix"
    # As README has it.
    shown=$(sed -n 's/.*`\(make install PREFIX=[^`]*\)`.*/\1/p' README.md)
    run env HOME="$scratch/home" sh -c "$shown"' PROGRAM="$0" TOOL="$1"' "$built" "$tool"
    holds "README's $shown" sh -c '[ "$1" -eq 0 ] && [ -x "$2/.local/bin/svemu-runner" ]' sh "$status" "$scratch/home"
    run env HOME="$scratch/home" sh -c "$(printf '%s\n' "$shown" | sed 's/install/uninstall/')"
    holds "and uninstall with its PREFIX" sh -c '[ "$1" -eq 0 ] && [ -z "$(find "$2" ! -type d)" ]' sh "$status" "$scratch/home/.local"
}

manual_page() {
    ! lacks "the manual page" man || return 0
    # A stand-in for man says that a system has no manual pages.
    if ! man --version >/dev/null 2>&1; then
        skip "the manual page" "this system has no manual pages"
        return
    fi
    for page in svemu svemu-tool; do
        run env LC_ALL=C.UTF-8 MANWIDTH=100 man --warnings -l "docs/$page.1"
        holds "the manual page of $page is shown" grep -Eq "^ +$page +[^ ]+ +runs +(a +)?static +AArch64" "$scratch/output"
        holds "without a warning of $page" [ ! -s "$scratch/errors" ]
    done
}

# The program of dist/ for AArch64, where it is of these sources: the examples, a listing made, shown and debugged, and
# the cases over real files.
aarch64() {
    ! lacks "the program for AArch64" qemu-aarch64 || return 0
    if [ ! -f dist/svemu-aarch64.gz ] || [ "$(sed -n 's/^sources //p' dist/svemu.txt)" != "$(./svemu --sources)" ]; then
        skip "the program for AArch64" "dist/ has none of these sources; tools/release makes it"
        return
    fi
    gzip -dc dist/svemu-aarch64.gz >"$scratch/svemu-aarch64"
    chmod +x "$scratch/svemu-aarch64"
    printf '#!/bin/sh\nexec qemu-aarch64 "%s" "$@"\n' "$scratch/svemu-aarch64" >"$scratch/on-aarch64"
    chmod +x "$scratch/on-aarch64"
    before=$SVEMU
    SVEMU=$scratch/on-aarch64
    examples "$top/examples" "on AArch64:"
    run "$SVEMU" asm examples/lane_sum.s
    cp "$scratch/output" "$scratch/made-on-aarch64.elf"
    "$before" asm examples/lane_sum.s >"$scratch/made.elf"
    holds "on AArch64: a listing" cmp "$scratch/made-on-aarch64.elf" "$scratch/made.elf"
    run "$SVEMU" dis "$scratch/made.elf"
    "$before" dis "$scratch/made.elf" >"$scratch/shown"
    holds "on AArch64: its text" cmp "$scratch/output" "$scratch/shown"
    run "$SVEMU" dbg "$scratch/made.elf" examples/lane_sum.script --vl 256 --budget 100
    holds "on AArch64: a session" cmp "$scratch/output" examples/lane_sum.session
    SVEMU=$before
    holds "on AArch64: the cases over real files" sh tests/cases.sh "$scratch/on-aarch64"
    gzip -dc dist/svemu-tool-aarch64.gz >"$scratch/tool-aarch64" && chmod +x "$scratch/tool-aarch64"
    run qemu-aarch64 "$scratch/tool-aarch64" run "$probe"
    ended "on AArch64: svemu-tool" 3 'to the output\n' 'to the errors\n'
}

# The lying executables of call_cases, worked out anew.
lying_images() {
    ! lacks "the table of lying executables" python3 || return 0
    holds "the table of lying executables" python3 tests/images.py --check
}

# The load programs of some numbers, whose lines a script works out.
load_programs() {
    ! lacks "load programs" python3 || return 0
    holds "load programs" python3 tests/loads.py "$built"
}

# Sessions that go back, each line of which a script takes from a session that doesn't.
sessions_back() {
    ! lacks "sessions that go back" python3 || return 0
    holds "sessions that go back" python3 tests/back.py "$built"
}

# README's list of the definitions that the headline reads.
trusted_definitions() {
    ! lacks "the definitions that the headline reads" python3 || return 0
    holds "the definitions that the headline reads" tools/trusted
}

# What one instruction costs, of the program and beside itself; what isn't here or asks for nothing is told.
costs_of_instructions() {
    ! lacks "what instructions cost" python3 valgrind aarch64-linux-gnu-as aarch64-linux-gnu-ld || return 0
    program=$("$SVEMU" --program 2>/dev/null) || program=$SVEMU
    holds "what nop costs, twice" sh -c \
        'python3 tests/costs.py "$1" "$1" --only "$2" | grep -Eq "^[|] .nop. [|] ([1-9][0-9]*) \1 [|]$"' sh "$program" nop
    holds "a row of vectors" sh -c \
        'python3 tests/costs.py "$1" --only "$2" --bits 256 512 | grep -Eq "^[|] .str p0, .x0.. [|] [1-9][0-9]* [|] [1-9][0-9]* [|]$"' \
        sh "$program" "str p0"
    run python3 tests/costs.py "$scratch/nosuch"
    ended "no program to measure" 1 '' "costs.py: $scratch/nosuch is no program\n"
    run python3 tests/costs.py svemu
    ended "a script" 1 '' "costs.py: svemu is a script, not the program itself: ./svemu --program names it\n"
    run python3 tests/costs.py "$program" --only nosuch
    ended "no row" 1 '' "costs.py: no row has 'nosuch'\n"
}

# The names, signatures, fields and variants that other programs find at the roots of the crates; and that a list which
# says otherwise is told.
public_surface() {
    ! lacks "the public surface" python3 || return 0
    holds "the public surface" python3 tests/surface.py
    holds "the longest chain of crates in DECISIONS" sh -c \
        'tr -s " \n,\140" "    " <docs/DECISIONS.md | grep -Fq " $1 "' sh "$(python3 tests/surface.py --chain | sed 's/.*: //')"
    while read -r crate change; do
        sed "$change" tests/surface.txt >"$scratch/surface.txt"
        holds "the list of the surface, changed by $change" sh -c \
            '! cmp -s tests/surface.txt "$1" && ! python3 tests/surface.py --list "$1" "$2"' sh "$scratch/surface.txt" "$crate"
    done <<'END'
insn_decode s/^pub fn encode(i: &Insn) -> u32/pub fn encode(i: \&Insn) -> u64/
insn_decode s/^pub fn decode(w: u32)/pub fn decode(w: u64)/
insn_decode s/^pub fn decode(/pub fn decoded(/
emu_bits s/^pub enum Esize { B, H, S, D }/pub enum Esize { B, H, S }/
emu_bits s/^pub enum Esize { B, H, S, D }/pub enum Esize { B, H, S, D, Q }/
emu_bits s/^pub struct Flags { pub n: bool,/pub struct Flags {/
core_regs s/Branch(u64)/Branch(u32)/
io_gate s/^impl Sink for MemSink/impl Source for MemSink/
io_gate s/^    fn take(&mut self, into: &mut .u8.)/    fn take(\&self, into: \&mut [u8])/
guest_mem s/pub write: bool/pub write: u8/
vl_sweep s/^impl<const LIMIT: usize>/impl<const LIMIT: u32>/
a64_insn s/Adr { op, immlo, immhi, rd }/Adr { op, immlo, rd }/
elf_image s/TooShort, //
a64_insn s/^stands on emu_bits/stands on nothing/
END
}

# A minute of random input, the same each time.
random_input() {
    ! lacks "random input" python3 || return 0
    holds "random input" env SVEMU="$built" sh tests/fuzz.sh 60 1
}

# Each allocation of some commands refused in turn, by what a C compiler makes.
refused_memory() {
    env SVEMU="$built" sh tests/wanting.sh >"$scratch/said" 2>&1
    case $? in
        0)
            pass
            tail -n 1 "$scratch/said"
            ;;
        3) lacks "refused memory" cc || skip "refused memory" "the C compiler makes no shared object" ;;
        *) fail "refused memory" "$(tail -n 5 "$scratch/said")" ;;
    esac
}

# That what changes in the contracts of two trees is told: what is changed in a copy of a crate, how, and what is said.
contracts_compared() {
    ! lacks "contracts compared" python3 || return 0
    mkdir -p "$scratch/old/crates" "$scratch/new/crates"
    cp -R crates/line_words crates/lane_pack "$scratch/old/crates"
    cp -R crates/line_words crates/lane_pack "$scratch/new/crates"
    number=$scratch/new/crates/line_words/src/texts.rt
    holds "the same contracts" python3 tests/clauses.py "$scratch/old" "$scratch/new"
    cat >"$scratch/contracts" <<'CHANGES'
a clause that is gone@/^    ensures { result ≡ is_comment/d@^  gone: ensures . result ≡ is_comment
another clause@s/{ place < length texts.now }/{ place ≤ length texts.now }/@^  other: requires
another name@s/is_newline/is_end/@^  other: .*names alone: is_newline -> is_end
a new requires@s/^    ensures { result ≡ is_comment/    requires { 1 < 2 } &/@^  asks: requires . 1 < 2
a function that is gone@/^pub fn is_comment/,/^}/d@is_comment .gone.$
CHANGES
    while IFS=@ read -r what change said; do
        sed "$change" crates/line_words/src/texts.rt >"$number"
        holds "contracts with $what are other sources" sh -c '! cmp -s "$1" "$2"' sh "$number" crates/line_words/src/texts.rt
        python3 tests/clauses.py "$scratch/old" "$scratch/new" >"$scratch/differences"
        holds "contracts with $what" sh -c '[ "$1" -eq 1 ] && grep -Eq -e "$2" "$3"' sh "$?" "$said" "$scratch/differences"
    done <"$scratch/contracts"
    cp crates/line_words/src/texts.rt "$number"
    mv "$scratch/new/crates/line_words/src/texts.rt" "$scratch/new/crates/line_words/src/moved.rt"
    python3 tests/clauses.py "$scratch/old" "$scratch/new" >"$scratch/differences"
    holds "contracts that moved" sh -c '[ "$1" -eq 0 ] && grep -q "moved to line_words: moved: " "$2"' sh "$?" "$scratch/differences"
    run python3 tests/clauses.py "$scratch/old"
    ended "one tree alone" 2 '' 'clauses.py: two trees are wanted (--help shows how)\n'
    run python3 tests/clauses.py "$scratch/old" "$scratch/nosuch"
    ended "no tree" 2 '' "clauses.py: $scratch/nosuch has no folder crates\n"
}

# The crates that are proved alone are copied with what they stand on, and nothing else.
crates_alone() {
    holds "crates to prove alone are copied" sh tests/alone.sh --copy "$scratch/apart"
    holds "a crate on nothing" sh -c '[ "$(ls "$1/lane_pack/crates")" = lane_pack ]' sh "$scratch/apart"
    holds "a crate with what it stands on" sh -c '[ "$(ls "$1/pred_bits/crates" | tr "\n" " ")" = "emu_bits lane_model pred_bits " ]' sh "$scratch/apart"
    holds "its files" diff -r -x out crates/pred_bits "$scratch/apart/pred_bits/crates/pred_bits"
    run sh tests/alone.sh nosuch
    ended "no crate of this name" 2 '' "alone.sh: crates.txt has no crate nosuch\n"
}

# The suites of others are run by hand: they take sources from elsewhere. Here the runtime that they stand on, and what is
# refused.
suites_of_others() {
    for words in "" "--lengths" "GCC GLIBC" "LLVM"; do
        # shellcheck disable=SC2086 # words
        run sh tests/suites.sh $words
        ended_like "suites.sh $words" 2 "suites.sh: .*"
    done
    run sh tests/suites.sh --help
    holds "suites.sh has help" grep -q '^usage: ' "$scratch/output"
    ! lacks "the suites' runtime" aarch64-linux-gnu-gcc || return 0
    cat >"$scratch/text.c" <<'TEXT'
int printf(const char *, ...);
int strcmp(const char *, const char *);
int sprintf(char *, const char *, ...);
void *calloc(unsigned long, unsigned long), *realloc(void *, unsigned long);
__attribute__((noreturn)) void abort(void);
int main(void)
{
    char text[40], *bytes = realloc(calloc(3, 5), 40);
    printf("n %d %5d|%-3d|%05d %u %lx %#lX %lld %c %s %.2s %5s %% %.4x\n", -7, 42, 3, -42, 4000000000u, 0xabcul, 0xABCul, -9000000000000ll, 'c',
           "text", "text", "abc", 0x1f);
    sprintf(text, "%s %d", "sum", 500500);
    if (strcmp(text, "sum 500500") != 0 || bytes[14] != 0)
        return 1;
    abort();
}
TEXT
    holds "the suites' runtime is built" aarch64-linux-gnu-gcc -O2 -march=armv8-a+sve --param=aarch64-autovec-preference=2 -mno-outline-atomics \
        -ffreestanding -nostdlib -static -fno-stack-protector -Wall -Wextra -Werror -I examples -o "$scratch/text.elf" examples/start.S \
        tests/suites/runtime.c "$scratch/text.c"
    run "$runner" "$scratch/text.elf"
    ended "the suites' runtime" 134 'n -7    42|3  |-0042 4000000000 abc 0XABC -9000000000000 c text te   abc %% 001f\n' ''
}

# The families of words, by the second program, where it is built, and by GNU's disassembler.
families_of_words() {
    ! lacks "families of words" python3 aarch64-linux-gnu-objdump || return 0
    holds "families of words" python3 tests/families.py "$tool" family
}

# The counts of the second program add up to the steps, and are those of QEMU.
counts_of_words() {
    ! lacks "counts of words" python3 || return 0
    set --
    for name in gathers heap integers lanes loops pictures spills strings structures; do
        set -- "$@" "crates/command_cases/data/$name.elf"
    done
    # what else the examples do rests on addresses, which QEMU chooses otherwise
    for name in histogram lost_sums memcpy positives set_length strlen; do
        set -- "$@" "examples/$name.elf"
    done
    holds "counts of words" python3 tests/counts.py "$tool" "$@"
}

# The lines of the steps of these programs are those of `count`, `dis` and `run`, and stand where QEMU's steps do.
traces_of_steps() {
    ! lacks "traces of steps" python3 || return 0
    set --
    for name in gathers lanes spills strings structures; do
        set -- "$@" "crates/command_cases/data/$name.elf"
    done
    for name in lost_sums memcpy positives set_length strlen; do
        set -- "$@" "examples/$name.elf"
    done
    # One with symbols, whose functions may be asked for by name.
    if ! lacks "traces by symbols" aarch64-linux-gnu-gcc; then
        holds "a program with symbols" aarch64-linux-gnu-gcc -O2 -march=armv8-a+sve -ffreestanding -nostdlib -static -Iexamples \
            -o "$scratch/named.elf" examples/start.S tests/covered/tail.c
        set -- "$@" "$scratch/named.elf"
    fi
    holds "traces of steps" python3 tests/traces.py "$SVEMU" "$tool" "$@"
}

# Sessions of the debugger for people find what their tasks ask for, and answer as a second one does; and one at a
# terminal.
debugger_for_people() {
    ! lacks "the debugger for people" python3 || return 0
    holds "sessions of the debugger" python3 tests/debugger.py "$SVEMU" "$tool"
    ! lacks "a session at a terminal" tmux || return 0
    holds "a session at a terminal" sh tests/debugging.sh "$tool"
}

. tests/start.sh
. tests/runner.sh
. tests/recipes.sh
. tests/kernels.sh
. tests/diff.sh
. tests/cover.sh
. tests/listings.sh
. tests/documents.sh
. tests/threads.sh

run "$SVEMU" run crates/svemu/data/exit7.elf --vl 128 --budget 10
holds "svemu is there" [ "$status" -eq 7 ]
cases_over_files() {
    holds "the cases over real files" sh tests/cases.sh "$built"
}

pages() {
    . tests/pages.sh
}

parts=$#
[ "$parts" -gt 0 ] || parts=$(grep -c '^    part "' tests/tools.sh)
if [ "$failed" -eq 0 ]; then
    part "the start and the release" start
    part "the cases over real files" cases_over_files
    part "the program for AArch64" aarch64
    part "the examples" examples "$top/examples" "checked in:"
    part "threads and schedules" threads
    part "the examples, built" builds
    part "listings" listings
    part "refused listings and scripts" listing_refusals
    part "texts through GNU's assembler" gnu_texts
    part "the commands of the documents" documents
    part "where forms stand" places_of_forms
    part "the runner" runner_passes_on
    part "the runner with stand-ins" runner_and_stand_ins
    part "the runner and signals" runner_in_time
    part "what the runner refuses" runner_refusals
    part "the runner from elsewhere" runner_from_elsewhere
    part "the lengths" over_lengths
    part "who is told of --help" help_here
    part "what beginners are told" beginners
    part "what a start takes" times_of_a_start
    part "what instructions cost" costs_of_instructions
    part "make install" installation
    part "the manual page" manual_page
    part "the recipes" recipes
    part "families of words" families_of_words
    part "counts of words" counts_of_words
    part "traces of steps" traces_of_steps
    part "the debugger for people" debugger_for_people
    part "kernels and guarded buffers" kernel_tests
    part "where two lengths part" where_lengths_part
    part "what ran over the lengths" covered
    part "pages" pages
    part "refused memory" refused_memory
    part "load programs" load_programs
    part "sessions that go back" sessions_back
    part "lying executables" lying_images
    part "the trusted definitions" trusted_definitions
    part "the public surface" public_surface
    part "contracts compared" contracts_compared
    part "crates alone" crates_alone
    part "suites of others" suites_of_others
    part "random input" random_input
fi
# shellcheck disable=SC2086 # words
[ -z "${to_install:-}" ] || echo "what was skipped for a command needs: apt install$(printf ' %s' $to_install | tr ' ' '\n' |
    sort -u | sed '/^$/d; s/^/ /' | tr -d '\n')"
echo "$passed passed, $failed failed, $skipped skipped"
[ "$failed" -eq 0 ]
