# shellcheck shell=sh
# shellcheck disable=SC2016,SC2154 # shells that are called expand them; tools.sh sets the others
# Tests of the pages that svemu-lanes and svemu-curve draw; tools.sh reads it.

lanes=$top/tools/svemu-lanes
curve=$top/tools/svemu-curve

# Whether a page is opened by Chromium without an error, and has what svemu shows.
opens() {
    name=$1
    script=$2
    shift 2
    lacks "$name" chromium || holds "$name" timeout 120 python3 "tests/$script" "$scratch/page.html" "$@"
}

drawn_pages() {
    rm -rf "$scratch/pages"
    cp -R examples "$scratch/pages"
    rm "$scratch"/pages/*.html
    holds "make lanes" make -C "$scratch/pages" lanes LANES="$lanes"
    for page in strlen lost_sums; do
        holds "the page of $page is the one beside it" cmp "$scratch/pages/$page.html" "examples/$page.html"
        holds "it names nothing outside of it" sh -c '! grep -Eq "https?:|src=|@import|url\(" "$1"' sh "examples/$page.html"
    done
    for vl in 128 2048; do
        run "$lanes" --vl "$vl" --symbols examples/strlen.symbols --from strlen --after 3 --steps 30 examples/strlen.elf
        holds "a page of strlen at $vl" [ "$status" -eq 0 ]
        cp "$scratch/output" "$scratch/page.html"
        opens "strlen at $vl in Chromium" pages.py examples/strlen.elf "$vl" 'ldff1b {z0.b}, p0/z, [x1, x0]' 'rdffr p1.b, p0/z' 'cmpeq p2.b, p1/z, z0.b, #0'
        run "$lanes" --vl "$vl" --from 0x400158 --steps 200 --show z0.s,z1.b,p0.s,x0,ffr examples/lost_sums.elf
        holds "a page of lost_sums at $vl" [ "$status" -eq 0 ]
        cp "$scratch/output" "$scratch/page.html"
        holds "it has less than 2 MB" [ "$(wc -c <"$scratch/page.html")" -lt 2000000 ]
        opens "lost_sums at $vl in Chromium" pages.py examples/lost_sums.elf "$vl" 'ld1w {z1.s}, p0/z, [x1, x0, lsl #2]' 'add x0, x0, x2, lsl #0' 'movprfx z0.s, p0/z, z0.s'
    done
}

# Whether a page is looked at in this way in Chromium without an error: a long one, one of two lengths, or one on paper.
looked_at() {
    name=$1
    shift
    lacks "$name" chromium || holds "$name" timeout 300 python3 tests/pages.py "$@"
}

# What the page of the last run has of the step with this number: the JSON of its row.
row() {
    python3 tests/pages.py --data "$scratch/output" | grep "^{\"n\":$1,"
}

# The instructions of the page of the last run, as JSON.
instructions() {
    python3 tests/pages.py --data "$scratch/output" | grep '^{"pc":'
}

# A loop of five vectors over 60,000 words that are alike to none, at two lengths and by 5,000 steps.
long_pages() {
    lacks "pages of a kernel" aarch64-linux-gnu-gcc && return
    cat >"$scratch/mix.c" <<'TEXT'
#include "guest.h"
#include <arm_sve.h>
static unsigned in[60000], out[60000], many[300000];
__attribute__((noinline)) void mix(unsigned *to, const unsigned *from, long n) {
    for (long i = 0; i < n; i += svcntw()) {
        svbool_t some = svwhilelt_b32(i, n);
        svuint32_t x = svmul_x(some, svld1(some, from + i), 2654435761u);
        x = svadd_x(some, sveor_x(some, x, svlsr_x(some, x, 15)), svld1(some, to + i));
        svst1(some, to + i, x);
    }
}
__attribute__((noinline)) void turn(unsigned *to, long n) {
    for (long i = 0; i < n; i += 4 * svcntw()) {
        svuint32x4_t x = svld4(svptrue_b32(), to + i);
        svst4(svptrue_b32(), to + i, svcreate4(svget4(x, 3), svget4(x, 2), svget4(x, 1), svget4(x, 0)));
    }
}
int main(void) {
    unsigned s = 1;
    for (int i = 0; i < 300000; i++) {
        s = s * 1664525u + 1013904223u;
        many[i] = s ^ s >> 15;
    }
    for (int i = 0; i < 60000; i++) {
        s = s * 1664525u + 1013904223u;
        in[i] = s;
        out[i] = s >> 7 ^ s << 3;
    }
    mix(out, in, 40);
    mix(out, in, 60000);
    turn(many, 290000);
    return 0;
}
TEXT
    holds "a kernel" aarch64-linux-gnu-gcc -O2 -march=armv8-a+sve -ffreestanding -nostdlib -static -fno-pic -no-pie -fno-stack-protector \
        -Iexamples -o "$scratch/mix.elf" examples/start.S "$scratch/mix.c"
    for vl in 512 2048; do
        run "$lanes" --vl "$vl" --in mix --call 2 "$scratch/mix.elf"
        holds "a page of 5,000 steps at $vl" [ "$status" -eq 0 ]
        cp "$scratch/output" "$scratch/page.html"
        holds "it says what is left of the call" \
            sh -c 'python3 tests/pages.py --data "$1" | grep -Eq "^.\"the call has [0-9]+ more steps: --after 5000 draws them\".$"' sh "$scratch/page.html"
        looked_at "a page of 5,000 steps at $vl in Chromium" --long "$scratch/page.html"
        run "$lanes" --vl "$vl" --in mix --call 2 --steps 240 "$scratch/mix.elf"
        cp "$scratch/output" "$scratch/page.html"
        looked_at "a page at $vl on paper" --paper "$scratch/page.html"
    done
    # Of what can't be compressed a page has fewer steps, and says so.
    run "$lanes" --vl 2048 --from turn --steps 5000 "$scratch/mix.elf"
    cp "$scratch/output" "$scratch/page.html"
    holds "a page that is full" sh -c '[ "$(wc -c <"$1")" -le 3000000 ] &&
        python3 tests/pages.py --data "$1" | grep -Eqx "..the page is full: --after 4[0-9]+ draws what follows.."' sh "$scratch/page.html"
    looked_at "a page that is compressed in Chromium" --packed "$scratch/page.html"
    run "$lanes" --vl 256 --beside 640 --in mix "$scratch/mix.elf"
    holds "a call at two lengths" [ "$status" -eq 0 ]
    cp "$scratch/output" "$scratch/page.html"
    looked_at "a call at two lengths in Chromium" --rows "$scratch/page.html"
    looked_at "a call at two lengths on paper" --paper "$scratch/page.html"
    run "$lanes" --vl 512 --beside 640 --in mix --call 2 "$scratch/mix.elf"
    ended_like "a long call beside another" 2 \
        "svemu-lanes: at 512 bits the call has [0-9]+ steps, and 20000 are the most beside another length"
}

# Two lengths without a call: steps in the same call of a function at one address stand side by side.
two_lengths() {
    run "$lanes" --vl 512 --beside 640 --steps 400 examples/lost_sums.elf
    holds "a run at two lengths" [ "$status" -eq 0 ]
    cp "$scratch/output" "$scratch/page.html"
    holds "its rows" python3 -c 'import sys
sys.path.insert(0, "tests")
from pages import data_of
data = data_of(sys.argv[1])
left, right = data["sides"]
assert (left["vl"], right["vl"], len(data["pairs"])) == (512, 640, 400)
both = [(left["rows"][i], right["rows"][j]) for i, j in data["pairs"] if i is not None and j is not None]
assert len(both) > 300 and all(left["code"][one["c"]]["pc"] == right["code"][other["c"]]["pc"] for one, other in both)
assert data["more"] == []' "$scratch/page.html"
    looked_at "a run at two lengths in Chromium" --rows "$scratch/page.html"
}

page_notes() {
    run "$lanes" --vl 256 --steps 190 "$probe"
    holds "a page of the whole probe" [ "$status" -eq 0 ]
    holds "it has what was written" grep -q 'writes 14 bytes: to the output\\\\n' "$scratch/output"
    holds "and how it ended" grep -Eq '"exit 3 after [0-9]+ steps"' "$scratch/output"
    holds "aliases stand beside the texts" \
        sh -c 'printf "%s\n" "$1" | grep -q "\"text\":\"movz w0, #3, lsl #0\",\"alias\":\"mov w0, #3\""' sh "$(instructions)"
    run "$SVEMU" asm examples/lane_sum.s
    cp "$scratch/output" "$scratch/lane_sum.elf"
    run "$lanes" --vl 256 --watch 0x401028,4 --show z1.s "$scratch/lane_sum.elf"
    holds "a watch is told where dbg tells it, and nowhere else" sh -c '[ "$(printf "%s\n" "$1" | grep -c touches)" -eq 1 ] && [ "$(grep -o touches "$2" | wc -l)" -eq 1 ]' \
        sh "$(row 11)" "$scratch/output"
    run "$lanes" --vl 256 --from 0x400000 --steps 2 "$scratch/lane_sum.elf"
    holds "a place where the program begins" [ -n "$(row 1)" ]
    run "$lanes" --vl 256 --budget 5 "$scratch/lane_sum.elf"
    holds "a budget ends the steps" sh -c '[ -z "$2" ] && case $1 in *"spent after 5 steps"*) ;; *) exit 1 ;; esac' sh "$(row 5)" "$(row 6)"
    run "$lanes" --vl 384 --symbols examples/lost_sums.symbols --from put_text --steps 1 examples/lost_sums.elf
    holds "a label" sh -c 'case $1 in *"\"at\":\"put_text\""*) ;; *) exit 1 ;; esac' sh "$(instructions)"
    run "$SVEMU" asm examples/overrun.s
    cp "$scratch/output" "$scratch/overrun.elf"
    run "$lanes" --vl 256 --steps 5000 "$scratch/overrun.elf"
    holds "a page that ends by a trap" [ "$status" -eq 0 ]
    holds "the step that trapped is its last" \
        sh -c 'python3 tests/pages.py --data "$1" | tail -n 1 | grep -Eq "\"trap [a-z]+ 0x[0-9a-f]+ at 0x[0-9a-f]+ after [0-9]+ steps\""' sh "$scratch/output"
}

# The pages over the lengths: those of the examples, and that of a guest which does otherwise from length to length.
drawn_curves() {
    holds "make curves" make -C "$scratch/pages" curves CURVE="$curve"
    for page in strlen lost_sums; do
        holds "the curve of $page is the one beside it" cmp "$scratch/pages/$page.curve.html" "examples/$page.curve.html"
        holds "it names nothing outside of it" sh -c '! grep -Eq "https?:|src=|@import|url\(" "$1"' sh "examples/$page.curve.html"
        cp "examples/$page.curve.html" "$scratch/page.html"
        opens "the curve of $page in Chromium" curves.py "examples/$page.elf"
    done
    # It writes as many bytes as a vector has, traps at 768 bits, and exits with another code from 1024 bits on.
    cat >"$scratch/by_length.s" <<'TEXT'
        rdvl x19, #1
        mov x20, #0
        sub sp, sp, #512
        str x19, [sp]
        mov x0, #1
        mov x1, sp
        mov x2, x19
        mov x8, #64
        svc #0
        mov x0, #2
        mov x2, #5
        svc #0
        cmp x19, #96
        b.ne on
        ldr x0, [x20]
on:     lsr x0, x19, #7
        mov x8, #93
        svc #0
TEXT
    run "$SVEMU" asm "$scratch/by_length.s"
    cp "$scratch/output" "$scratch/by_length.elf"
    run "$curve" --budget 100 --pages 300 "$scratch/by_length.elf"
    holds "a curve of a guest that does otherwise at each length" [ "$status" -eq 0 ]
    holds "it says where" grep -q 'parts from that at 128 bits at 256, .* and 2048 bits. The program ends otherwise than at 128 bits at 768, 1024, ' "$scratch/output"
    cp "$scratch/output" "$scratch/page.html"
    opens "the curve of what traps in Chromium" curves.py "$scratch/by_length.elf"
    run env SVEMU_BUDGET=15 SVEMU_VL=99 "$curve" "$scratch/by_length.elf"
    holds "a budget ends the runs, and the length of a run is none of a curve" sh -c '[ "$1" -eq 0 ] && [ "$(grep -o "\"how\":\"spent\"" "$2" | wc -l)" -eq 15 ]' \
        sh "$status" "$scratch/output"
}

# `--open` with a stand-in for xdg-open, with one that fails, and with none.
opened_pages() {
    mkdir "$scratch/opening" "$scratch/alone"
    printf '#!/bin/sh\nprintf "%%s\\n" "$@" >"$OPENED"\nexit "$ENDS"\n' >"$scratch/opening/xdg-open"
    chmod +x "$scratch/opening/xdg-open"
    python=$(python3 -c 'import sys; print(sys.executable)')
    cache="$scratch/it's a cache"
    for drawer in "$lanes" "$curve"; do
        page="a page of ${drawer##*/}"
        "$drawer" examples/strlen.elf <"$input" >"$scratch/page.html"
        rm -f "$scratch/opened"
        run env PATH="$scratch/opening:$PATH" XDG_CACHE_HOME="$cache" OPENED="$scratch/opened" ENDS=0 "$drawer" --open examples/strlen.elf
        ended "$page is opened" 0 '' ''
        holds "$page: one file is opened" [ "$(wc -l <"$scratch/opened")" -eq 1 ]
        file=$(cat "$scratch/opened")
        holds "$page: it is the one" cmp "$scratch/page.html" "$file"
        holds "$page stands in the cache" sh -c 'case $1 in "$2"/svemu/pages/strlen.elf-*.html) ;; *) false ;; esac' sh "$file" "$cache"
        run env PATH="$scratch/opening:$PATH" XDG_CACHE_HOME="$cache" OPENED="$scratch/opened" ENDS=3 "$drawer" --budget 1000 --open examples/strlen.elf
        holds "$page is told where it can't be opened" sh -c '[ "$1" -eq 0 ] && [ "$(cat "$2")" = "$3" ]' sh "$status" "$scratch/output" "$file"
        run env PATH="$scratch/alone" SVEMU="$built" SVEMU_TOOL="$tool" XDG_CACHE_HOME="$cache" "$python" "$drawer" --open examples/strlen.elf
        holds "$page is told where there is no xdg-open" sh -c '[ "$1" -eq 0 ] && [ "$(cat "$2")" = "$3" ]' sh "$status" "$scratch/output" "$file"
        holds "$page: nothing else is left" [ "$(find "$cache/svemu/pages" -name "${file##*/}*" | wc -l)" -eq 1 ]
        run env SVEMU="$built" SVEMU_TOOL="$tool" XDG_CACHE_HOME="$scratch/empty" "$drawer" --open examples/strlen.elf
        ended_like "$page without a cache" 2 "${drawer##*/}: the page couldn't be written: .*"
        run "$drawer" --budget 1000 examples/strlen.elf --open
        holds "$page: behind the program it is an argument" grep -q '^<!DOCTYPE html>' "$scratch/output"
        run "$drawer" --help
        holds "$page: help" grep -q '^With --open ' "$scratch/output"
    done
    holds "no other tool has --open" sh -c '! tools/svemu-schedules --help | grep -e --open'
}

# Whether the page is refused in one line, with status 2 and nothing written, by the tool that `drawer` names.
refused() {
    name=$1
    wanted=$2
    shift 2
    run "$drawer" "$@"
    holds "$name: nothing is written" [ ! -s "$scratch/output" ]
    ended_like "$name" 2 "${drawer##*/}: $wanted"
}

# A stand-in for svemu, whose sweep goes through these commands.
sweeping() {
    printf '#!/bin/sh\n[ "$1" = sweep ] || exec "%s" "$@"\n%s\n' "$SVEMU" "$1" >"$scratch/sweeping"
    chmod +x "$scratch/sweeping"
}

curve_refusals() {
    drawer=$curve
    refused "a curve of no program" "no program is named \(--help shows how\)"
    refused "a curve of one length" "there is no option --vl \(--help lists them\)" --vl 256 "$probe"
    refused "a bad budget" "--budget wants a number from 0 to 18446744073709551615, not x" --budget x "$probe"
    refused "no file for a curve" ".*/nosuch couldn't be read" "$scratch/nosuch"
    refused "no image for a curve" "svemu-tool says: .*/empty is no ELF file" "$scratch/empty"
    before=$SVEMU
    for change in 's/^vl 384 exit 0 after 1367/vl 384 exit 0 after 1368/' 's/parts at 4$/parts at 5/' 's/^\(vl 512 .*\) out 11/\1 out 12/' 's/^\(vl 128 .*\) err 0/\1 err 1/'; do
        sweeping "\"$before\" \"\$@\" | sed '$change'"
        SVEMU=$scratch/sweeping
        refused "a sweep that isn't as the runs are: $change" "a run at (128|384|512) bits isn't the one that the sweep told" examples/lost_sums.elf
        SVEMU=$before
    done
    for change in 15q '3p' 's/^vl 256/vl 257/' 's/ same/ alike/' '$s/$/ and more/'; do
        sweeping "\"$before\" \"\$@\" | sed '$change'"
        SVEMU=$scratch/sweeping
        refused "a sweep that can't be read: $change" "what the sweep showed couldn't be read" examples/strlen.elf
        SVEMU=$before
    done
    sweeping "echo 'too long 16777216' >&2; exit 127"
    SVEMU=$scratch/sweeping
    refused "a long output" "the input, or what the program writes at one of the lengths, has more than 16777216 bytes" "$probe"
    SVEMU=$before
    run sh -c '"$1" "$2" >/dev/full' sh "$curve" "$probe"
    ended_like "a full disk for a curve" 2 "svemu-curve: the page couldn't be written: No space left on device"
}

page_refusals() {
    drawer=$lanes
    refused "no program" "no program is named \(--help shows how\)"
    refused "an unknown option" "there is no option --wide \(--help lists them\)" --wide 3 "$probe"
    refused "an option without a value" "--vl wants a value" --vl
    refused "a bad length" "--vl wants a multiple of 128 from 128 to 2048, not 192" --vl 192 "$probe"
    refused "a bad number" "--steps wants a number from 1 to 5000, not 0" --steps 0 "$probe"
    refused "a bad register" "--show has no register z32 \(as z0.s, p0, ffr, x3\)" --show z0.s,z32 "$probe"
    refused "a label without symbols" "main is no number, the file has no symbols, and --symbols names no output of nm" --from main "$probe"
    refused "an unknown label" "no symbol is named nosuch" --symbols examples/strlen.symbols --from nosuch examples/strlen.elf
    refused "no symbols" ".*/empty has no line of nm that names code" --symbols "$scratch/empty" "$probe"
    refused "too many steps" "--steps wants a number from 1 to 5000, not 5001" --steps 5001 "$probe"
    refused "a call of nothing" "--call wants --in SYMBOL beside it" --call 2 "$probe"
    refused "a call from a place" "--in and --from aren't given together" --in main --from 0x400000 "$probe"
    refused "no length beside" "--beside wants a multiple of 128 from 128 to 2048, not 200" --in main --beside 200 "$probe"
    refused "a length beside itself" "--vl and --beside are both 256" --in main --vl 256 --beside 256 "$probe"
    refused "a call of a stripped program" ".* has no symbols of functions: build it without -s, and don't strip it" --in main examples/lost_sums.elf
    refused "a place that isn't reached" "the program ends before: exit 0 after 97 steps" --vl 128 --from 0x400000 examples/strlen.elf
    refused "a bad watch" "--watch wants a place and a number of bytes with a comma between, not 4" --watch 4 "$probe"
    refused "no such file" ".*/nosuch couldn't be read" "$scratch/nosuch"
    refused "no image" "svemu-tool says: .*/empty is no ELF file" "$scratch/empty"
    before=$SVEMU
    SVEMU=$scratch/nosuch
    refused "no svemu" "there is no program $scratch/nosuch \(--help says where it is looked for\)" "$probe"
    SVEMU=$before
    printf '#!/bin/sh\necho "svemu: trace is no command: see svemu-tool --help" >&2\nexit 121\n' >"$scratch/no_trace"
    chmod +x "$scratch/no_trace"
    run env SVEMU_TOOL="$scratch/no_trace" "$lanes" "$probe"
    ended_like "an older svemu-tool" 2 "svemu-lanes: this svemu-tool has no command trace: that of this tool's release or checkout has it"
    run env SVEMU_TOOL="$scratch/nosuch" "$lanes" "$probe"
    ended_like "no svemu-tool" 2 "svemu-lanes: there is no program .*/nosuch \(--help says where it is looked for\)"
    run sh -c '"$1" --vl 128 "$2" >/dev/full' sh "$lanes" "$probe"
    ended_like "a full disk" 2 "svemu-lanes: the page couldn't be written: No space left on device"
    run "$lanes" --help
    holds "help" sh -c '[ "$1" -eq 0 ] && grep -q "^usage: svemu-lanes " "$2"' sh "$status" "$scratch/output"
}

if ! lacks pages python3; then
    drawn_pages
    page_notes
    long_pages
    two_lengths
    lacks "aliases of instructions" aarch64-linux-gnu-gcc aarch64-linux-gnu-objdump ||
        holds "aliases of instructions" python3 tests/aliases.py "$SVEMU" examples/*.elf crates/command_cases/data/*.elf
    page_refusals
    run "$curve" --help
    holds "the curve's help" sh -c '[ "$1" -eq 0 ] && grep -q "^usage: svemu-curve " "$2"' sh "$status" "$scratch/output"
    if "$SVEMU" sweep "$probe" --budget 10 <"$scratch/empty" >/dev/null 2>&1; then
        drawn_curves
        curve_refusals
        opened_pages
    else
        skip "pages over the lengths" "this svemu has no sweep"
    fi
fi
