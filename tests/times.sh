#!/bin/sh
# Prints what a start takes, in milliseconds: of the program alone, and what ./svemu, the runner and the installed ones
# take above it; and the seconds of 200 schedules. It fails nothing: how fast a machine is, and how busy, is its own
# affair. The least of the times tells what a start takes where something else runs beside it.
set -u

usage() {
    cat <<'TEXT'
usage: tests/times.sh [RUNS]

Runs a program of three steps RUNS times, 50 where it isn't given, by each of

  the program that ./svemu runs (or SVEMU), ./svemu, tools/svemu-runner, and the two as `make install` puts them,

and prints the middle of the times of each, what that and the least of them are above the program's, and what is wanted.
Then the time of 200 schedules by tools/svemu-schedules in the checkout, and how many processes the machine had to run
for each of its processors in the last minute. Wants python3 and a program of these sources.
TEXT
}

fail() {
    echo "times.sh: $1" >&2
    exit 2
}

[ "$#" -le 1 ] || fail "one number of runs is wanted (--help shows how)"
runs=${1:-50}
case $runs in
    --help)
        usage
        exit 0
        ;;
    '' | 0* | *[!0-9]* | ??????*) fail "the number of runs is 1 to 99999, not '$runs' (--help shows how)" ;;
esac
cd "$(dirname "$0")/.." || exit 1
command -v python3 >/dev/null || fail "python3 isn't on this machine"
program=${SVEMU:-$(./svemu --program)} || exit 1
unset SVEMU SVEMU_VL SVEMU_BUDGET SVEMU_PAGES
scratch=$(mktemp -d) || exit 1
trap 'rm -rf "$scratch"' EXIT
trap 'exit 1' HUP INT TERM
make -s install PREFIX="$scratch/to" PROGRAM="$program" >"$scratch/said" 2>&1 || fail "make install: $(tail -n 1 "$scratch/said")"
python3 - "$runs" "$program" "$scratch/to/bin" <<'TIMES'
import os
import subprocess
import sys
import time

RUNS, PROGRAM, BIN = int(sys.argv[1]), sys.argv[2], sys.argv[3]
GUEST = "crates/svemu/data/exit7.elf"
WORDS = ["run", GUEST, "--vl", "128", "--budget", "10"]
QUIET = {"stdin": subprocess.DEVNULL, "stdout": subprocess.DEVNULL, "stderr": subprocess.DEVNULL, "check": False}


def milliseconds(words, status):
    began = time.perf_counter()
    ended = subprocess.run(words, **QUIET).returncode
    took = (time.perf_counter() - began) * 1000
    if ended != status:
        sys.exit(f"times.sh: {' '.join(words)} ended with status {ended}, not {status}")
    return took


def middle_and_least(words, status, runs):
    times = sorted(milliseconds(words, status) for _ in range(runs))
    return times[runs // 2], times[0]


busy = os.getloadavg()[0] / (os.cpu_count() or 1)
alone, least_alone = middle_and_least([PROGRAM, *WORDS], 7, RUNS)
print(f"the program alone           {alone:8.1f} ms, the middle of {RUNS} runs; the least {least_alone:.1f}")
for name, words, wanted in (
        ("./svemu", ["./svemu", *WORDS], 10),
        ("tools/svemu-runner", ["tools/svemu-runner", GUEST], 8),
        ("the installed svemu", [BIN + "/svemu", *WORDS], 3),
        ("the installed svemu-runner", [BIN + "/svemu-runner", GUEST], 3)):
    took, least = middle_and_least(words, 7, RUNS)
    print(f"{name:27} {took:8.1f} ms, {took - alone:.1f} above the program, "
          f"the least {least - least_alone:.1f}; wanted are {wanted}")
took = milliseconds(["tools/svemu-schedules", "200", "examples/treiber_stack.elf"], 0) / 1000
print(f"200 schedules               {took:8.1f} s; wanted are 1.5")
print(f"processes to a processor    {busy:8.1f}")
TIMES
