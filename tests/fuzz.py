"""Random input for the built program: words near those of the tables, command lines, images with lying fields, listings and
debugger scripts. Nothing is compared but that each call ends within five seconds, by a status of docs/MANUAL.md and the line
that goes with it, and does the same when it is made again. Called by tests/fuzz.sh: fuzz.py PROGRAM SECONDS SEED."""

import itertools
import os
import random
import re
import struct
import subprocess
import sys
import tempfile
import time

TOP = os.path.dirname(os.path.dirname(os.path.abspath(__file__)))
LIMIT = 5
ENTRY = 0x400000

# The statuses of svemu itself, each with what its standard error holds.
OWN = {
    0: rb"",
    120: rb"",
    121: rb"refused words [A-Za-z]+ at [0-9]+\n",
    122: rb"refused (image|listing|script|schedule) [A-Za-z0-9]+( at( line)? [0-9]+)?\n",
    126: rb"",
    127: rb"too long [0-9]+\n",
}
# How a run ends by itself, with its status; the registers follow.
EXIT = re.compile(rb"exit ([0-9]+) after [0-9]+ steps\n")
SPENT = re.compile(rb"spent after [0-9]+ steps\n")
STUCK = re.compile(rb"stuck after [0-9]+ steps\n")
TRAP = re.compile(rb"trap ([a-z-]+) 0x[0-9a-f]{16} at 0x[0-9a-f]{16} after [0-9]+ steps\n")
# A line of a sweep.
LENGTH = re.compile(rb"vl [0-9]+ (exit [0-9]+|trap [a-z-]+ 0x[0-9a-f]{16} at 0x[0-9a-f]{16}|spent) after [0-9]+ steps out [0-9]+ err [0-9]+ (same|parts at [0-9]+)")
SIGNALS = {
    b"undefined": 4, b"halt": 4, b"break": 5, b"pc-align": 7, b"sp-align": 7, b"access-align": 7,
    b"fetch": 11, b"read": 11, b"write": 11,
}


def lines_behind(path, first, go_on):
    """The lines of a file behind its line `first`, as long as they go on."""
    with open(os.path.join(TOP, path), encoding="utf-8") as file:
        lines = file.read().split("\n")
    return list(itertools.takewhile(go_on, lines[lines.index(first) + 1 :]))


# The texts of the listing of all instructions, and the words that its disassembly shows behind their addresses.
STATEMENTS = lines_behind("crates/command_cases/stdin", "file texts.s", lambda line: line != ".")
SHOWN = lines_behind("crates/command_cases/stdout", "line dis texts.elf", lambda line: not line.startswith("errors: "))
WORDS = [int(line.split()[1], 16) for line in SHOWN if line.startswith("  ")]
DIRECTIVES = [
    ".code", ".data", ".byte 1, 2", ".half -1", ".word 0x10", ".quad start", '.ascii "a\\n\\0"', ".zero 16", ".align 8",
    ".bss 64", ".entry start", "start:", "loop: nop", "b start", "cbz x0, loop", "adr x1, start", "// a comment",
]
COMMANDS = ["run", "asm", "dis", "dbg", "load", "sweep", "threads"]
SCRIPT = [
    "step {n}", "go", "break {a}", "watch {a} {l}", "regs", "zreg {k}", "preg {k}", "ffr", "vl", "lanes {k} {t}", "mem {a} {l}",
    "# a comment", "", "hop", "step",
]


def image(rng, code, data=b""):
    """An executable with one segment of all rights, and sometimes one of data."""
    segments = [(7, ENTRY, code)] + ([(6, ENTRY + 0x10000, data)] if data else [])
    headers, body, place = b"", b"", 0x1000
    for flags, address, content in segments:
        headers += struct.pack("<IIQQQQQQ", 1, flags, place, address, address, len(content), len(content) + rng.choice((0, 64)), 4096)
        body += content + bytes(-len(content) % 0x1000)
        place += len(content) + -len(content) % 0x1000
    head = bytes((127, 69, 76, 70, 2, 1, 1)) + bytes(9)
    head += struct.pack("<HHIQQQIHHHHHH", 2, 183, 1, ENTRY, 64, 0, 0, 64, 56, len(segments), 0, 0, 0)
    return (head + headers).ljust(0x1000, b"\0") + body


def near(rng):
    """A word of the tables, mostly with a bit or two turned."""
    word = rng.choice(WORDS)
    for _ in range(rng.choice((0, 0, 1, 1, 2, 5))):
        word ^= 1 << rng.randrange(32)
    return word


def program(rng):
    words = [near(rng) for _ in range(rng.randrange(1, 60))]
    if rng.random() < 0.5:
        words += [0xD2800BA8, 0xD4000001]
    return b"".join(struct.pack("<I", word) for word in words)


def lying(rng):
    """An image with a field of any value, or cut short."""
    made = bytearray(image(rng, program(rng), rng.choice((b"", bytes(range(200))))))
    for _ in range(rng.choice((1, 1, 2, 4))):
        place, size = rng.randrange(0, 176), rng.choice((1, 2, 4, 8))
        value = rng.choice((0, 1, 2 ** (8 * size) - 1, 2 ** (8 * size - 1), rng.getrandbits(8 * size), 4096, 0x7F0000000000))
        made[place : place + size] = (value % 2 ** (8 * size)).to_bytes(size, "little")
    return bytes(made[: rng.choice((len(made), len(made), rng.randrange(0, len(made) + 1)))])


def turned(rng, text):
    """A text with a few characters dropped, doubled or exchanged."""
    for _ in range(rng.choice((0, 0, 1, 2))):
        if not text:
            return text
        k = rng.randrange(len(text))
        text = text[:k] + rng.choice(("", text[k] * 2, rng.choice(" ,[]{}#-:./xzpw09\t\"é"))) + text[k + 1 :]
    return text


def listing(rng):
    lines = [turned(rng, rng.choice((rng.choice(STATEMENTS), rng.choice(STATEMENTS), rng.choice(DIRECTIVES)))) for _ in range(rng.randrange(0, 40))]
    made = "\n".join(lines).encode()
    return made + rng.choice((b"\n", b"", b"\xff\n")) if rng.random() < 0.1 else made + b"\n"


def script(rng):
    lines = []
    for _ in range(rng.randrange(0, 30)):
        values = {
            "n": rng.choice((1, 2, 7, 100, 0, 2**64)), "a": hex(ENTRY + rng.choice((0, 4, 8, 0x1000, 0x10000, 2**47))),
            "l": rng.choice((1, 8, 16, 4096, 0, 4097)), "k": rng.choice((0, 1, 15, 31, 32)), "t": rng.choice("bhsdq"),
        }
        lines.append(turned(rng, rng.choice(SCRIPT).format(**values)))
    return "\n".join(lines).encode() + b"\n"


def schedule(rng):
    turns = ["{t} {n}"] * 8 + ["# a comment", "", "{t}", "{t} {n} 1"]
    lines = []
    for _ in range(rng.randrange(0, 12)):
        values = {"t": rng.choice((0, 1, 2, 7, 2**64 - 1)), "n": rng.choice((1, 1, 2, 5, 100, "0x10", 0))}
        lines.append(turned(rng, rng.choice(turns).format(**values)))
    return "\n".join(lines).encode() + b"\n"


# Starts a context on a stack of its own, which both go on behind.
CLONE = [0xD281E000, 0xF2A00020, 0xD11003E1, 0xD2801B88, 0xD4000001]


def limits(rng):
    words = ["--budget", str(rng.choice((0, 1, 50, 1000, 20000)))]
    return words + (["--pages", str(rng.choice((257, 300, 16384)))] if rng.random() < 0.3 else [])


def options(rng):
    return ["--vl", str(128 * rng.randrange(1, 17)), *limits(rng)]


def line(rng):
    words = [rng.choice(COMMANDS + ["a.elf", "b", "--vl", "128", "200", "--budget", "01", "--pages", "0", "--", "--x", "", "9" * 30]) for _ in range(rng.randrange(0, 9))]
    return words + rng.choice(([], [], [], ["w" * 40000], ["w"] * 320))


def case(rng):
    """Files by their names, and the words of a command line."""
    kind = rng.randrange(8)
    if kind == 0:
        return {"a.elf": image(rng, program(rng), rng.randbytes(rng.choice((0, 64))))}, ["run", "a.elf", *options(rng)]
    if kind == 1:
        return {"a.elf": lying(rng)}, rng.choice((["run", "a.elf", *options(rng)], ["dis", "a.elf"]))
    if kind == 2:
        return {"a.s": listing(rng)}, ["asm", "a.s"]
    if kind == 3:
        return {"a.elf": image(rng, program(rng)), "s": script(rng)}, ["dbg", "a.elf", "s", *options(rng)]
    if kind == 4:
        return {"a.elf": image(rng, program(rng))}, line(rng)
    if kind == 5:
        return {"a.elf": image(rng, program(rng), rng.randbytes(rng.choice((0, 64))))}, ["sweep", "a.elf", *limits(rng)]
    if kind == 6:
        code = b"".join(struct.pack("<I", word) for word in CLONE * rng.randrange(3)) + program(rng)
        return {"a.elf": image(rng, code, rng.randbytes(64)), "t": schedule(rng)}, ["threads", "a.elf", "t", *options(rng)]
    return {"a.elf": image(rng, b"".join(struct.pack("<I", near(rng)) for _ in range(300)))}, ["dis", "a.elf"]


def fault_of(words, done):
    """What is wrong with how a call ended, or nothing."""
    if done.returncode < 0:
        return f"ended by signal {-done.returncode}"
    command = words[0] if words else ""
    if command in ("run", "threads"):
        tail = done.stderr[-200000:]
        trap, spent = TRAP.search(tail), SPENT.search(tail)
        if trap and done.returncode == 128 + SIGNALS.get(trap[1], 0):
            return None
        if command == "threads" and done.returncode == 119 and STUCK.search(tail):
            return None
        if (spent and done.returncode == 123) or any(int(found) == done.returncode for found in EXIT.findall(tail)):
            return None
        if done.returncode in (124, 125):
            return f"status {done.returncode}, though no stream failed"
    if done.returncode not in OWN or (command in ("run", "threads") and done.returncode == 0):
        return f"status {done.returncode}"
    if command == "sweep" and done.returncode == 0:
        lines = done.stdout.splitlines()
        if len(lines) != 16 or not all(LENGTH.fullmatch(found) for found in lines):
            return f"{len(lines)} lines, from {done.stdout[:80]!r} on"
    if command != "dbg" and not re.fullmatch(OWN[done.returncode], done.stderr):
        return f"status {done.returncode} with {done.stderr[:80]!r}"
    return None


def call(program_, words, folder):
    return subprocess.run([program_, *words], cwd=folder, input=b"some input\n", capture_output=True, timeout=LIMIT, check=False)


def tried(program_, number, seed, folder):
    rng = random.Random(f"{seed}/{number}")
    files, words = case(rng)
    for name, content in files.items():
        with open(os.path.join(folder, name), "wb") as file:
            file.write(content)
    try:
        first, second = call(program_, words, folder), call(program_, words, folder)
    except subprocess.TimeoutExpired:
        return f"no end within {LIMIT} seconds"
    if (first.returncode, first.stdout, first.stderr) != (second.returncode, second.stdout, second.stderr):
        return "ends otherwise when it is called again"
    return fault_of(words, first)


def main(program_, seconds, seed):
    end, number, bad = time.monotonic() + float(seconds), 0, 0
    with tempfile.TemporaryDirectory() as folder:
        while time.monotonic() < end and bad < 10:
            fault = tried(program_, number, seed, folder)
            if fault:
                bad += 1
                print(f"case {number} of seed {seed}: {fault}")
            number += 1
    print(f"{number} cases of seed {seed}, {bad} bad")
    return 1 if bad else 0


if __name__ == "__main__":
    sys.exit(main(*sys.argv[1:4]))
