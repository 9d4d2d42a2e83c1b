"""Compares the aliases that svemu-lanes shows with what GNU's disassembler writes of the same words.

usage: aliases.py SVEMU PROGRAM ..

The words are those of the programs, and of each some with a few bits turned, the same ones each time: what `svemu dis`
writes of them goes through the aliases, and has to be what aarch64-linux-gnu-objdump writes, but for the form of numbers.
"""

import os
import random
import re
import subprocess
import sys
import tempfile

sys.dont_write_bytecode = True
sys.path.insert(0, os.path.join(os.path.dirname(os.path.abspath(__file__)), "..", "tools"))
from svemu_aliases import alias  # noqa: E402

TURNED = 20


def output(*words):
    return subprocess.run(words, capture_output=True, text=True, check=True).stdout.splitlines()


def alike(text):
    """A text with its numbers in decimal, as both write it."""
    text = re.sub(r"\s+", " ", text.split("//")[0].split("<")[0]).strip().replace("b.none", "b.eq").replace("b.any", "b.ne")
    moved = re.fullmatch(r"mov ([wx])(?:\d+|zr), #(-\d+)", text)
    if moved:
        text = text.replace(moved[2], str(int(moved[2]) % 2 ** (64 if moved[1] == "x" else 32)))
    text = re.sub(r"#(-?(?:0x[0-9a-f]+|\d+))\b", lambda found: f"#{int(found[1], 0)}", text)
    return re.sub(r"\b0x([0-9a-f]+)$", r"\1", text)


def compared(svemu, program):
    """How many instructions were compared, and those that parted."""
    theirs, parted, count = {}, [], 0
    for line in output("aarch64-linux-gnu-objdump", "-d", "-z", "--no-show-raw-insn", program):
        found = re.match(r"\s*([0-9a-f]+):\t(.*)", line)
        if found:
            theirs[int(found[1], 16)] = alike(found[2])
    for line in output(svemu, "dis", program):
        other, text = theirs.get(int(line[:16], 16), ""), line[26:]
        if text.startswith(".word") or not other or "undefined" in other or other.startswith((".inst", "udf")):
            continue
        count += 1
        if alike(alias(text)) != other:
            parted.append(f"{text}: {alias(text)}, and {other}")
    return count, parted


def turned(svemu, programs, folder):
    """A program of words of others with a few bits turned."""
    chance, words = random.Random(5), set()
    for program in programs:
        words |= {int(line[17:25], 16) for line in output(svemu, "dis", program) if line[26:31] != ".word"}
    lines = []
    for word in sorted(words):
        for _ in range(TURNED):
            other = word
            for _ in range(chance.choice((1, 1, 2, 3, 5))):
                other ^= 1 << chance.randrange(32)
            lines.append(f".inst {other}\n")
    source, program = os.path.join(folder, "words.s"), os.path.join(folder, "words.elf")
    with open(source, "w", encoding="ascii") as file:
        file.write(".globl _start\n_start:\n" + "".join(lines))
    output("aarch64-linux-gnu-gcc", "-nostdlib", "-static", "-march=armv8-a+sve", "-o", program, source)
    return program


def main(svemu, *programs):
    with tempfile.TemporaryDirectory() as folder:
        counts, partings = zip(*(compared(svemu, program) for program in (*programs, turned(svemu, programs, folder))))
    parted = [line for some in partings for line in some]
    print("\n".join(parted[:20] + [f"{sum(counts)} instructions, {len(parted)} parted"]))
    return 1 if parted or sum(counts) == 0 else 0


if __name__ == "__main__":
    sys.exit(main(*sys.argv[1:]))
