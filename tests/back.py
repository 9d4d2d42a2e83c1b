#!/usr/bin/env python3
"""Compares sessions of `svemu dbg` that go back with sessions that don't, and with runs.

usage: back.py PROGRAM           the last line is 'N sessions, M commands, K differ'
       back.py --cases PROGRAM   prints sessions as lines for crates/command_cases, and to the errors what is to be
                                 written of them

Where a session stands is worked out here: how many steps it has counted, whether it has trapped, and the furthest
count.
What each command has to print there is taken from a fresh session without `back`, which steps to that place first; what
the program has to write, from a run with a budget of the furthest count. The programs write nothing but GUEST.
"""

import random
import re
import subprocess
import sys
import tempfile

GUEST = "~{}^"
ENTRY = 0x400000

# Each program has data from 0x401000 on, up to where its break begins, 0x404000, as `w.elf` of crates/command_cases.
DATA = "\n.data\n.zero 12288\n"
# Each has its listing, its vector length in bits, its pages, its input, and commands that look at what it changes.
PROGRAMS = {
    "exit": ("""
        movz x0, #7
        movz x8, #93
        svc #0
        """, 128, 16384, "", ["regs", "mem 0x400000 20"]),
    "writes": ("""
            movz x1, #64, lsl #16
            add x1, x1, #2, lsl #12
            movz x9, #126
            strb w9, [x1, #0]
            movz x10, #5
        turn:
            str x10, [x1, #8]
            movz x0, #1
            movz x2, #1
            movz x8, #64
            svc #0
            movz x0, #2
            svc #0
            sub x10, x10, #1
            cbnz x10, turn
            movz x0, #3
            movz x8, #93
            svc #0
        """, 256, 16384, "", ["mem 0x402000 16", "regs"]),
    "maps": ("""
            movz x0, #0
            movz x1, #8192
            movz x2, #3
            movz x3, #0x22
            movz x8, #222
            svc #0
            add x9, x0, #0
            movz x10, #0x55
            str x10, [x9, #0]
            str x10, [x9, #4096]
            add x0, x9, #0
            movz x1, #4096
            movz x8, #215
            svc #0
            ldr x11, [x9, #4096]
            ldr x12, [x9, #0]
            movz x8, #93
            svc #0
        """, 128, 16384, "", ["mem 0x7effffffe000 8", "mem 0x7efffffff000 8", "regs"]),
    "grows": ("""
            movz x0, #0
            movz x8, #214
            svc #0
            add x9, x0, #0
            add x0, x9, #2, lsl #12
            svc #0
            movz x10, #0x66
            strb w10, [x9, #0]
            strb w10, [x9, #4095]
            add x0, x9, #16
            svc #0
            add x0, x9, #0
            svc #0
            ldrb w11, [x9, #0]
            movz x8, #93
            svc #0
        """, 128, 16384, "", ["mem 0x404000 4", "mem 0x404ff8 16", "regs"]),
    "reads": ("""
            movz x1, #64, lsl #16
            add x1, x1, #2, lsl #12
        turn:
            movz x0, #0
            movz x2, #3
            movz x8, #63
            svc #0
            cbz x0, out
            add x2, x0, #0
            movz x0, #1
            movz x8, #64
            svc #0
            cbnz x0, turn
        out:
            movz x0, #9
            movz x8, #93
            svc #0
        """, 128, 16384, "~{}^^{~}~~", ["mem 0x402000 4", "regs"]),
    "lengths": ("""
            ptrue p0.b
            dup z0.b, #1
            index z1.s, #0, #3
            movz x0, #50
            movz x1, #16
            movz x8, #167
            svc #0
            add z0.b, z0.b, z0.b
            movz x0, #50
            movz x1, #64
            svc #0
            dup z2.d, x1
            add z1.s, z1.s, z0.s
            brk #0
        """, 512, 16384, "", ["vl", "zreg 0", "lanes 1 s", "preg 0", "zreg 2"]),
    "long": ("""
            movz x1, #64, lsl #16
            add x1, x1, #2, lsl #12
            movz x9, #126
            strb w9, [x1, #0]
            movz x10, #30000
            movz x2, #1
            movz x8, #64
        turn:
            str x10, [x1, #8]
            sub x10, x10, #1
            and x11, x10, #0x1fff
            cbnz x11, more
            movz x0, #1
            svc #0
        more:
            cbnz x10, turn
            movz x0, #0
            ldr x0, [x0, #0]
        """, 128, 16384, "", ["mem 0x402000 16", "regs"]),
    "pages": ("""
            movz x0, #0
            movz x1, #4, lsl #16
            movz x2, #3
            movz x3, #0x22
            movz x8, #222
            svc #0
            add x9, x0, #0
            movz x10, #700
        turn:
            movz x11, #64
            add x12, x9, #0
        page:
            str x10, [x12, #0]
            add x12, x12, #1, lsl #12
            sub x11, x11, #1
            cbnz x11, page
            sub x10, x10, #1
            cbnz x10, turn
            movz x8, #93
            svc #0
        """, 128, 330, "", ["mem 0x7effffff0000 8", "mem 0x7efffffff000 8", "regs"]),
}
BUDGETS = {"long": 200000, "pages": 200000}


class Place:
    """Where a session stands: the counted steps, whether a trap ended it, and the furthest count."""

    def __init__(self):
        self.steps, self.trapped, self.top = 0, False, 0

    def moved(self, line):
        """Goes where a line of the session says."""
        found = re.search(r" (?:after|back to|to) (\d+) steps", line)
        if found:
            self.steps = int(found.group(1))
            self.trapped = line.startswith("trap")
            self.top = max(self.top, self.steps)


class Program:
    """A listing made into an executable, and what svemu says of it."""

    def __init__(self, svemu, folder, name):
        listing, self.bits, self.pages, self.input, self.looks = PROGRAMS[name]
        self.svemu, self.folder, self.budget = svemu, folder, BUDGETS.get(name, 1000)
        self.file = f"{folder}/{name}.elf"
        with open(f"{folder}/{name}.s", "w", encoding="ascii") as out:
            out.write("\n".join(line.strip() for line in listing.strip().splitlines()) + DATA)
        with open(self.file, "wb") as out:
            out.write(self.call("asm", f"{folder}/{name}.s").stdout)
        self.known = {}

    def options(self, budget):
        return ["--vl", str(self.bits), "--budget", str(budget), "--pages", str(self.pages)]

    def call(self, *words):
        given = getattr(self, "input", "").encode()
        return subprocess.run([self.svemu, *words], input=given, capture_output=True, timeout=60, check=False)

    def words(self):
        """The words of the program, as `dis` shows them."""
        return [line.split()[1].upper() for line in self.call("dis", self.file).stdout.decode().splitlines()]

    def session(self, script):
        """What a session puts to its two streams."""
        with open(f"{self.folder}/script", "w", encoding="ascii") as out:
            out.write("\n".join(script) + "\n")
        done = self.call("dbg", self.file, f"{self.folder}/script", *self.options(self.budget))
        return done.stdout.decode(), done.stderr.decode()

    def written(self, steps):
        """What the program writes to its two streams in so many steps."""
        if steps not in self.known:
            done = self.call("run", self.file, *self.options(steps))
            errors = done.stderr.decode()
            self.known[steps] = done.stdout.decode(), errors[:len(errors) - len(errors.lstrip(GUEST))]
        return self.known[steps]

    def printed(self, points, place, command):
        """The lines that a fresh session prints for a command, where it has come to this place."""
        before = [f"step {place.steps}"] * (place.steps > 0) + ["step 1"] * place.trapped
        output, _ = self.session([*points, *before, command])
        lines = [line.lstrip(GUEST) for line in output.splitlines()]
        return lines[len(before):]

    def back(self, place, k):
        """The line of `back K`, by the address that a fresh session stands at there."""
        steps = max(place.steps - k, 0)
        if steps == 0:
            return f"back to 0 steps at 0x{ENTRY:016x}"
        output, _ = self.session([f"step {steps}"])
        return f"back to {steps} steps at " + output.split()[-1]

    def expected(self, script):
        """What a session with `back` has to put to its two streams."""
        place, points, output = Place(), [], ""
        for command in script:
            name, *rest = command.split()
            written = self.written(place.top)[0]
            if name in ("break", "watch"):
                points.append(command)
                lines = []
            elif name == "back":
                lines = [self.back(place, int(rest[0]))]
            else:
                lines = self.printed(points, place, command)
            if name in ("step", "go", "back"):
                place.moved(lines[-1])
            output += self.written(place.top)[0][len(written):]
            output += "".join(line + "\n" for line in lines)
        return output, self.written(place.top)[1]


def script_of(rng, program):
    """A random script that goes back."""
    script = []
    for _ in range(rng.randrange(4, 12)):
        turn = rng.random()
        if turn < 0.25:
            script.append(f"back {rng.choice([1, 2, 3, 5, 8, 20, 4095, 4096, 4097, 70000])}")
        elif turn < 0.5:
            script.append(f"step {rng.choice([1, 2, 3, 5, 9, 40, 4096, 9000, 66000])}")
        elif turn < 0.65:
            script.append("go")
        elif turn < 0.72:
            script.append(f"break 0x{ENTRY + 4 * rng.randrange(16):x}")
        elif turn < 0.76:
            script.append(f"watch 0x{rng.choice([0x402008, 0x7EFFFFFFF000, 0x404000]):x} 8")
        else:
            script.append(rng.choice(program.looks))
    return [*script, "go", f"back {rng.randrange(1, 30)}", rng.choice(program.looks), "go"]


FIXED = [
    ("exit", ["step 3", "back 2", "step 1", "go", "back 9"]),
    ("exit", ["back 1", "mem 0x400000 4", "step 1", "back 1", "go"]),
    ("writes", ["go", "back 8", "mem 0x402000 16", "go", "back 1000", "go"]),
    ("maps", ["go", "back 2", "mem 0x7effffffe000 8", "back 4", "mem 0x7effffffe000 8", "go", "back 12", "go"]),
    ("grows", ["go", "back 3", "mem 0x404000 4", "back 4", "mem 0x404000 4", "go", "back 100", "mem 0x404000 4", "go"]),
    ("reads", ["step 6", "mem 0x402000 4", "back 1", "mem 0x402000 4", "step 1", "mem 0x402000 4", "go", "back 30",
               "go"]),
    ("lengths", ["go", "back 20", "go", "back 3", "vl", "lanes 1 s", "back 5", "vl", "lanes 1 s", "go"]),
    ("long", ["go", "back 1", "mem 0x402000 16", "back 4096", "mem 0x402000 16", "step 4096", "back 70000",
              "mem 0x402000 16", "go", "back 149999", "go"]),
    ("lengths", ["break 0x40001c", "go", "vl", "go", "back 6", "back 1", "go", "vl"]),
]


def case_of(program, script, wanted):
    """The lines of a session, and what is to be written of it. Lines that end in four zeros or more are left out."""
    words = " ".join(program.words()).lower()
    lines = ["copy w.elf base.elf", f"put w.elf 4096 4 {words}", f"lines s.txt {';'.join(script)}"]
    if program.input:
        lines.append(f"given {program.input}")
    lines.append(f"line dbg w.elf s.txt --vl {program.bits} --budget {program.budget}")
    answer = ["Done, status 0"]
    for name, text in zip(("output", "errors"), wanted):
        answer.append(f"{name}: {len(text)} bytes")
        answer += [f"  {line}" for line in text.splitlines() if not re.search(" 0000+$", line)]
    return "\n".join(lines), "\n".join(answer)


def main():
    show = sys.argv[1] == "--cases"
    svemu = sys.argv[-1]
    rng = random.Random(41)
    sessions, commands, differ = 0, 0, 0
    with tempfile.TemporaryDirectory() as folder:
        programs = {name: Program(svemu, folder, name) for name in PROGRAMS}
        scripts = FIXED + [(name, script_of(rng, programs[name])) for name in PROGRAMS for _ in range(4)]
        for name, script in FIXED if show else scripts:
            program = programs[name]
            wanted = program.expected(script)
            if show:
                lines, answer = case_of(program, script, wanted)
                print(lines)
                print(answer, file=sys.stderr)
                continue
            sessions, commands = sessions + 1, commands + len(script)
            found = program.session(script)
            if found != wanted:
                differ += 1
                print(f"{name}: {'; '.join(script)}\n  wanted {wanted}\n  found  {found}")
    if not show:
        print(f"{sessions} sessions, {commands} commands, {differ} differ")
    sys.exit(differ > 0)


main()
