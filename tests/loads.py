"""Compares what `svemu load N` writes with what its program has to write, for some N, and the time that it takes.

The sum, the greatest number and the steps at each length are worked out here, from the rule of the numbers.
`python3 tests/loads.py PROGRAM`; the last line is 'N numbers, M differ, S seconds the longest'.
"""

import resource
import struct
import subprocess
import sys

NUMBERS = (0, 1, 7, 19999, 2**32, 2**63, 2**64 - 20000, 2**64 - 1)
COUNT = 20000
# The processor's time that one may take, in seconds.
LIMIT = 0.2
# The instructions in front of the loop, in it, and behind it.
BEFORE, WITHIN, BEHIND = 6, 8, 16


def lines(number):
    """The sixteen lines."""
    numbers = [(number + j) * (j + 1) % 2**32 for j in range(COUNT)]
    output = struct.pack("<QQ", sum(numbers), max(numbers)).hex()
    for bits in range(128, 2049, 128):
        turns = -(-COUNT // (bits // 64))
        yield f"vl {bits} exit 0 after {BEFORE + WITHIN * turns + BEHIND} steps output {output}\n"


def seconds():
    """The processor's time of all calls so far."""
    used = resource.getrusage(resource.RUSAGE_CHILDREN)
    return used.ru_utime + used.ru_stime


def main():
    differ, longest = 0, 0.0
    for number in NUMBERS:
        before = seconds()
        words = [sys.argv[1], "load", str(number)]
        done = subprocess.run(words, stdin=subprocess.DEVNULL, capture_output=True, text=True, check=False)
        longest = max(longest, seconds() - before)
        if (done.returncode, done.stdout, done.stderr) != (0, "".join(lines(number)), ""):
            differ += 1
            print(f"load {number}: status {done.returncode}, output from {done.stdout[:80]!r} on")
            print(f"  errors {done.stderr[:80]!r}")
    print(f"{len(NUMBERS)} numbers, {differ} differ, {longest:.2f} seconds the longest")
    sys.exit(differ > 0 or longest > LIMIT)


main()
