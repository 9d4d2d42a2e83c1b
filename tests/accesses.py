"""Compares what tools/svemu_accesses.py says that a step loads and stores with what svemu does in it.

usage: accesses.py PROGRAM

A listing with each form of a load and a store is taken step by step by `svemu threads`, whose registers tell the
accesses. `svemu dbg` tells memory before and behind each step, and by watches which bytes it touches: the first and the
last byte of each access and of their gaps, and none beside them. The last line is 'N steps at L lengths, M differ'.
"""

import os
import subprocess
import sys
import tempfile

sys.path.insert(0, os.path.join(os.path.dirname(os.path.realpath(__file__)), "..", "tools"))
sys.dont_write_bytecode = True
import svemu_accesses as reading  # noqa: E402
import svemu_pages as pages  # noqa: E402
import svemu_turns as turning  # noqa: E402

LENGTHS = (128, 384, 2048)
# What sets the registers.
SET = """\
adr x1, middle
mov x2, #24
movn x3, #8
mov x4, #0x8123
movk x4, #0xa5b7, lsl #48
mov x5, #0x7ff9
ldrb w6, [x1]
index z2.s, #0, #3
index z3.d, #-5, #7
index z4.d, #-9, #5
mov x7, #9
index z5.d, x1, x7
index z6.b, #-3, #11
index z7.h, #5, #-13
index z8.b, #7, #3
pfalse p0.b
ptrue p1.b
trn1 p2.d, p1.d, p0.d
mov x7, #3
whilelo p3.d, xzr, x7
setffr
ldxr x8, [x1]
"""

# So many bytes of a step are watched.
MOST_WATCHED = 6

# The steps of a form with those that set the registers.
PREPARED = len(SET.splitlines()) + 1
DATA, BYTES, MIDDLE = 0x402000, 0x3000, 0x403800

# Of each form one statement; the registers are set anew before each.
FORMS = """\
ldr x9, [x1]
ldr w9, [x1, #12]
ldr w9, [x1, x2]
ldr x9, [x1, x2, lsl #3]
ldrb w9, [x1, w3, sxtw]
ldrh w9, [x1, w2, uxtw #1]
ldrsb x9, [x1, #3]
ldrsh w9, [x1], #6
ldrsw x9, [x1, #8]!
ldur x9, [x1, #-5]
ldurb w9, [x1, #-1]
ldursw x9, [x1, #-7]
ldp x9, x10, [x1, #16]
ldp w9, w10, [x1], #8
ldpsw x9, x10, [x1, #-8]!
ldnp x9, x10, [x1, #-16]
ldr q9, [x1, #16]
ldr b9, [x1, #1]
ldp s9, s10, [x1]
ldp q9, q10, [x1, #32]
str x4, [x1]
str w4, [x1, #-4]!
strb w4, [x1, x2]
strh w4, [x1], #2
stur x4, [x1, #-3]
stp x4, x5, [x1, #-16]!
stp xzr, x5, [x1]
stnp w4, w5, [x1, #8]
str d4, [x1, #8]
str q5, [x1, x2]
stp q4, q5, [x1]
ldar x9, [x1]
ldarb w9, [x1]
stlr w4, [x1]
stlrh w4, [x1]
ldxr x9, [x1]
stxr w9, x4, [x1]
ldadd x4, x9, [x1]
ldaddalb w4, w9, [x1]
ldclra w4, w9, [x1]
ldeorl x4, x9, [x1]
ldsetalh w4, w9, [x1]
ldsmax w4, w9, [x1]
ldsmin x4, x9, [x1]
ldumax x4, x9, [x1]
lduminb w4, w9, [x1]
swpal x4, x9, [x1]
swph w4, w9, [x1]
ldadd w4, wzr, [x1]
cas x4, x5, [x1]
casalb w6, w5, [x1]
ld1b {z9.b}, p1/z, [x1, x2]
ld1b {z9.s}, p1/z, [x1, #1, mul vl]
ld1h {z9.d}, p2/z, [x1, x2, lsl #1]
ld1w {z9.s}, p1/z, [x1, #-1, mul vl]
ld1sb {z9.h}, p1/z, [x1, x2]
ld1d {z9.d}, p3/z, [x1, x2, lsl #3]
ldnt1w {z9.s}, p1/z, [x1, x2, lsl #2]
ld2w {z9.s, z10.s}, p1/z, [x1, #2, mul vl]
ld3b {z9.b, z10.b, z11.b}, p2/z, [x1, x2]
ld4d {z30.d, z31.d, z0.d, z1.d}, p1/z, [x1, x2, lsl #3]
ld1rb {z9.h}, p1/z, [x1, #5]
ld1rw {z9.s}, p1/z, [x1, #8]
ld1rd {z9.d}, p1/z, [x1, #8]
ld1rd {z9.d}, p0/z, [x1, #8]
st1w {z6.s}, p0, [x1, x2, lsl #2]
ld1rqw {z9.s}, p1/z, [x1, #16]
ld1rqb {z9.b}, p2/z, [x1, x2]
ldff1b {z9.b}, p1/z, [x1, x2]
ldnf1w {z9.s}, p1/z, [x1, #1, mul vl]
ld1w {z9.s}, p1/z, [x1, z2.s, uxtw #2]
ld1w {z9.d}, p2/z, [x1, z3.d, lsl #2]
ld1b {z9.d}, p1/z, [x1, z4.d, sxtw]
ld1h {z9.d}, p2/z, [z5.d, #6]
st1b {z6.b}, p1, [x1, x2]
st1h {z6.s}, p2, [x1, #1, mul vl]
st1d {z6.d}, p1, [x1, x2, lsl #3]
stnt1h {z6.h}, p2, [x1, #-2, mul vl]
st2h {z6.h, z7.h}, p1, [x1, x2, lsl #1]
st4b {z6.b, z7.b, z8.b, z9.b}, p2, [x1, #4, mul vl]
st1w {z6.s}, p1, [x1, z2.s, uxtw]
st1b {z6.d}, p2, [z5.d, #3]
ldr z9, [x1, #3, mul vl]
str z6, [x1, #-1, mul vl]
ldr p9, [x1, #5, mul vl]
str p2, [x1, #-3, mul vl]
"""


def listing():
    """Registers: x1 in the middle of the data, x2 and x3 offsets, x4 to x6 numbers, z2 to z5 offsets and addresses, z6 to
    z8 numbers, p0 none, p1 all, p2 from lane to lane, p3 the first ones."""
    lines = ["  .entry start", "start:"]
    for form in FORMS.splitlines():
        lines += [*SET.splitlines(), form]
    lines += ["mov x0, #0", "mov x8, #94", "svc #0", "  .data"]
    lines += ["data:"]
    for begin in range(0, BYTES, 16):
        if DATA + begin == MIDDLE:
            lines.append("middle:")
        lines.append("  .byte " + ", ".join(str((k * 167 + k // 251) % 256) for k in range(begin, begin + 16)))
    return "\n".join(lines) + "\n"


class Machine:
    """The program at a length, step by step."""

    def __init__(self, svemu, file, vl):
        given = {name: [] for name in pages.Run.OPTIONS}
        self.run = pages.Run({**given, "--vl": [str(vl)], "--budget": ["100000"]}, file, [])
        self.run.svemu = svemu
        self.texts = turning.Follower(self.run).texts
        self.end = turning.ended(self.run, [(0, 1000)])

    def state(self, step):
        return turning.ended(self.run, [(0, 1000)], step).threads[0]

    def memories(self):
        """Memory behind each number of steps."""
        script = [line for _ in range(self.end.steps) for line in (*self.shown(), "step 1")]
        output = self.run.session(script).decode().splitlines()
        taken, data = [], ""
        for line in output:
            if line.startswith("0x"):
                data += line[20:].replace(" ", "")
            else:
                taken.append(bytes.fromhex(data))
                data = ""
        return taken

    @staticmethod
    def shown():
        return [f"mem {at:#x} 4096" for at in range(DATA, DATA + BYTES, 4096)]

    def touches(self, step, address):
        """Whether a step touches a byte."""
        output = self.run.session([f"step {step - 1}", f"watch {address:#x} 1", "go"], step)
        return b"watch 0 after %d steps" % step in output


def wrong(machine, step, text, before, behind):
    """What is wrong of the accesses of a step, or nothing."""
    some = reading.accesses(text, *(reading.State(machine.state(number)) for number in (step - 1, step)))
    if (some == []) != (", p0" in text):
        return "no access" if some == [] else "an access without an active lane"
    wanted = bytearray(before)
    touched = set()
    for access in some:
        at = access.address - DATA
        touched |= set(range(at, at + access.size))
        there = int.from_bytes(before[at:at + access.size], "little")
        if access.loads and access.loaded not in (None, there):
            return f"loads {access.loaded:#x}, {there:#x} is there"
        if access.stores:
            known = access.stored is not None
            wanted[at:at + access.size] = access.stored.to_bytes(access.size, "little") if known else behind[at:at + access.size]
    if bytes(wanted) != behind:
        at = next(at for at in range(BYTES) if wanted[at] != behind[at])
        return f"{behind[at]:#04x} is at {DATA + at:#x} behind it, not {wanted[at]:#04x}"
    edges = {at for at in touched if not {at - 1, at + 1} <= touched}
    for at in sorted(edges | {at + more for at in edges for more in (-1, 1)})[:MOST_WATCHED]:
        if machine.touches(step, DATA + at) != (at in touched):
            return f"{DATA + at:#x} is touched: {at not in touched}"
    return None


def main(words):
    if words == ["--help"] or len(words) != 1:
        print(__doc__.strip())
        return 0 if words == ["--help"] else 2
    svemu, count, differ = words[0], 0, 0
    with tempfile.TemporaryDirectory() as folder:
        with open(os.path.join(folder, "forms.s"), "w", encoding="utf-8") as file:
            file.write(listing())
        made = subprocess.run([svemu, "asm", file.name], capture_output=True, check=False)
        if made.returncode != 0:
            print(made.stderr.decode())
            return 1
        with open(os.path.join(folder, "forms.elf"), "wb") as file:
            file.write(made.stdout)
        for vl in LENGTHS:
            machine = Machine(svemu, file.name, vl)
            memories = machine.memories()
            for form in range(len(FORMS.splitlines())):
                step = PREPARED * (form + 1)
                address = turning.register(machine.state(step - 1), b"pc")
                text = machine.texts[address]
                said = wrong(machine, step, text, memories[step - 1], memories[step])
                count += 1
                if said:
                    differ += 1
                    print(f"{text} at {vl} bits: {said}")
    print(f"{count} steps at {len(LENGTHS)} lengths, {differ} differ")
    return int(differ > 0)


if __name__ == "__main__":
    sys.exit(main(sys.argv[1:]))
