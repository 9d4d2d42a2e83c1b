#!/bin/sh
# Refuses each allocation of some commands, one at a time, and looks how the program then ends: with status 120 and
# nothing written, or as where none is refused: tests/wanting.sh [PROGRAM]. Where no PROGRAM is given it is the one that
# SVEMU names, else the one that ./svemu runs. It takes glibc, and a C compiler (CC, else cc), which makes what refuses
# them. The last line is 'N allocations refused, K of them ended it, M bad'; status 3 says that nothing was tried, as
# there is no such compiler.
set -u

cd "$(dirname "$0")/.." || exit 1
program=${1:-${SVEMU:-$(./svemu --program)}} || exit 1
scratch=$(mktemp -d) || exit 1
trap 'rm -rf "$scratch"' EXIT
trap 'exit 1' HUP INT TERM
if ! ${CC:-cc} -shared -fPIC -O1 -o "$scratch/refuse.so" tests/refuse.c 2>"$scratch/said"; then
    head -n 3 "$scratch/said" >&2
    exit 3
fi

tried=0
ended=0
bad=0

# Runs the program with the Nth allocation refused: whether there was such a one.
refused() {
    number=$1
    shift
    : >"$scratch/refused"
    timeout 60 env REFUSE="$number" LD_PRELOAD="$scratch/refuse.so" "$program" "$@" </dev/null >"$scratch/output" 2>"$scratch/errors" 9>"$scratch/refused"
    status=$?
    [ -s "$scratch/refused" ]
}

# Refuses each allocation of a command, or as many as are said: wanting MOST WORD ..
wanting() {
    most=$1
    shift
    if refused 0 "$@"; then
        echo "an allocation was refused that nobody named: $*"
        bad=$((bad + 1))
        return
    fi
    mv "$scratch/output" "$scratch/own-output"
    mv "$scratch/errors" "$scratch/own-errors"
    own=$status
    nth=1
    while [ "$nth" -le "$most" ] && refused "$nth" "$@"; do
        tried=$((tried + 1))
        if [ "$status" -eq 120 ] && [ ! -s "$scratch/output" ] && [ ! -s "$scratch/errors" ]; then
            ended=$((ended + 1))
        elif [ "$status" -eq "$own" ] && cmp -s "$scratch/output" "$scratch/own-output" && cmp -s "$scratch/errors" "$scratch/own-errors"; then
            :
        else
            bad=$((bad + 1))
            echo "allocation $nth refused: status $status, $(wc -c <"$scratch/output") bytes of output, $(wc -c <"$scratch/errors") of errors: $*"
        fi
        nth=$((nth + 1))
    done
    echo "$((nth - 1)) allocations: $*"
}

# A listing with labels, strings, lists and an entry, and a script of each command of a session.
cat >"$scratch/all.s" <<'LISTING'
start: adr x1, place
  b later
  nop
later: movz x0, #7
  movz x8, #93
  svc #0
.entry start
.data
place: .byte 1, 2, 3
  .half 1, 2
  .word 1, 2, 3, 4
  .quad place, later, 7
  .ascii "text"
  .align 16
  .zero 5
.bss 64
LISTING
cat >"$scratch/stops.txt" <<'SCRIPT'
step 1
break 0x400008
go
preg 0
mem 0x400000 4
go
go
SCRIPT
printf '0 1\n# turns\n1 0x10\n' >"$scratch/turns.txt"
printf 'step 2\nback 1\ngo\n' >"$scratch/back.txt"
"$program" asm "$scratch/all.s" >"$scratch/all.elf" || exit 1

wanting 100000 run crates/svemu/data/exit7.elf --vl 128 --budget 10
wanting 100000 run crates/svemu/data/hi.elf --vl 256 --budget 20 --pages 300 -- one two
wanting 100000 dbg crates/svemu/data/exit7.elf "$scratch/stops.txt" --vl 128 --budget 100
wanting 100000 dbg crates/svemu/data/exit7.elf "$scratch/back.txt" --vl 128 --budget 100
wanting 100000 threads crates/svemu/data/exit7.elf "$scratch/turns.txt" --vl 128 --budget 10
wanting 100000 asm "$scratch/all.s"
wanting 100000 dis "$scratch/all.elf"
wanting 100000 run "$scratch/all.elf" --vl 192 --budget 10
"$program" load 0 >/dev/null 2>&1
[ "$?" -eq 121 ] || wanting 100 load 0

echo "$tried allocations refused, $ended of them ended it, $bad bad"
[ "$ended" -gt 0 ] && [ "$bad" -eq 0 ]
