"""What svemu-diff tells of one length: where a program traps, and which step wrote what a kernel's test found wrong."""

import re
import struct
import subprocess
from typing import NamedTuple

from svemu_calls import Calls, bytes_at, lane_of, last_branch, last_change, last_writer, stops_at, times
from svemu_pages import ENDING, Failure, find_tool
from svemu_program import PAGE

# The table of examples/guest.h, and the record of examples/kernel_test.h.
GUARDS, DIFFERENCE = "guarded_buffers", "kernel_test_difference"
GUARDS_TOLD = 256
# A program that is linked with a C library is begun by this function of it.
C_LIBRARY = "__libc_start_main"
# A page of svemu-lanes has so many steps before a trap, or of the call that ends by it.
DRAWN, CALL_DRAWN = 40, 1000
TRAP = re.compile(r"trap ([-a-z]+) 0x([0-9a-f]+) at 0x([0-9a-f]+)$")
SWEPT = re.compile(rb"vl (\d+) (" + ENDING + rb") after \d+ steps out \d+ err \d+ (?:same|parts at \d+)$")


class Difference(NamedTuple):
    """What kernel_test.h keeps of the first difference: the kernel's address, the first byte that is wrong and how many
    there are, the output's first byte and its bytes, and whether the kernel answers its result."""
    kernel: int
    at: int
    size: int
    output: int
    output_bytes: int
    answers: int


def place_of(run, address):
    return f"{run.program.label(address)}{run.program.line(address)}"


def instruction(run, address):
    return f"{run.program.texts.get(address, 'what is no instruction')} at {place_of(run, address)}"


def told_call(program, frame):
    name = program.functions[frame.function][0]
    return f"call {frame.number} of {name} (of {program.label(frame.back - 4)})"


def guard_of(run, step, address):
    """Where an address is beside a guarded buffer of guest.h, in words; or nothing."""
    table = run.program.object(GUARDS)
    if table is None:
        return ""
    for begin, count in struct.iter_unpack("<QQ", bytes_at(run, step, [(table, 16 * GUARDS_TOLD)])):
        end = begin + count
        if begin and end <= address < end + PAGE and end % PAGE == 0:
            return f"{times(address - end + 1, 'byte')} behind the end of a guarded buffer of {times(count, 'byte')}"
        if begin and begin - PAGE <= address < begin and begin % PAGE == 0:
            return f"{times(begin - address, 'byte')} before the begin of a guarded buffer of {times(count, 'byte')}"
    return ""


def family_of(text):
    """What kind of instruction a word is that has no text but `.word`, by svemu-tool; nothing where that can't be asked."""
    if not text.startswith(".word "):
        return ""
    try:
        done = subprocess.run([find_tool(), "family", text.removeprefix(".word ")], stdin=subprocess.DEVNULL, capture_output=True, check=False)
    except (OSError, Failure):
        return ""
    return done.stdout.decode(errors="replace").rstrip("\n").partition(" ")[2] if done.returncode == 0 else ""


def what_to_do(kind, guarded, program, text):
    if guarded:
        return ("let a predicate of the count (whilelt) govern it; 'Over-reads' of docs/TESTING_YOUR_CODE.md has an "
                "example")
    if kind == "undefined" and any(name.startswith(C_LIBRARY) for name, _ in program.labels.values()):
        return ("link it without its C library, which svemu doesn't run; 'What you need' of docs/TESTING_YOUR_CODE.md says "
                "what is in its place")
    if kind == "undefined":
        family = family_of(text)
        return (f"the word is {family}" if family else "svemu-runner tells what the word is") + \
            "; 'What leaves the table' of docs/TESTING_YOUR_CODE.md says what to do"
    return f"'What you see' of docs/MANUAL.md has it below 'trap {kind}'"


def trap(run, functions):
    """The lines on the trap by which a run ends: where, in which call, and how to look at it."""
    stop, ending = stops_at(run, set())[1]
    kind, address, pc = TRAP.match(ending).groups()
    address, pc = int(address, 16), int(pc, 16)
    try:
        calls = Calls(run, run.program, functions, True)
        frame = calls.frames[-1] if calls.frames else None
    except Failure:
        calls, frame = None, None
    inside = f", in {told_call(run.program, frame)}" if frame else ""
    guarded = guard_of(run, stop.step, address) if kind in ("read", "write") else ""
    lines = [f"at {run.vl} bits it ends by trap {kind} {address:#x} after {times(stop.step, 'step')}{inside}",
             f"by {instruction(run, pc)}"]
    if guarded:
        lines.append(f"{address:#x} is {guarded}")
    return [*lines, f"what to do: {what_to_do(kind, bool(guarded), run.program, run.program.texts.get(pc, ''))}", drawn(run, stop.step, calls, frame)]


def drawn(run, step, calls, frame):
    """Which page shows what led to a trap behind so many steps: the call in which it is, where that is short, or the
    steps before it."""
    names = [name for name, _ in run.program.functions.values()]
    if frame:
        name = run.program.functions[frame.function][0]
        begun = next(event.step for event in calls.events if event.kind == "entry" and event.frame == frame)
        if names.count(name) == 1 and step - begun <= CALL_DRAWN:
            return drawn_call(run, name, frame.number)
    after = max(0, step - DRAWN)
    page = run.lanes("--vl", str(run.vl), "--after", str(after), "--steps", str(step - after + 1))
    return f"draw the steps before it: {page}"


def drawn_call(run, name, number, *words):
    """The line with the command that draws a call of a function."""
    return f"draw it: {run.lanes('--in', name, '--call', str(number), '--vl', str(run.vl), *words)}"


def failing_lengths(run):
    """The lengths at which a test doesn't exit with 0."""
    failing = []
    for line in run.call("sweep", run.file, *run.limits(), *run.arguments, given=run.input).splitlines():
        swept = SWEPT.match(line)
        if not swept:
            raise Failure("what the sweep showed couldn't be read")
        if swept[2] != b"exit 0":
            failing.append(int(swept[1]))
    return failing


def told_lengths(failing):
    if len(failing) == 16:
        return "at all sixteen lengths"
    if len(failing) > 2 and failing[-1] - failing[0] == 128 * (len(failing) - 1):
        return f"at {failing[0]} to {failing[-1]} bits"
    return f"at {', '.join(map(str, failing))} bits"


def has_test(run, program):
    """The place of the record of kernel_test.h in a program."""
    place = program.object(DIFFERENCE)
    if place is None:
        raise Failure(f"{run.file} has no {DIFFERENCE}: --test is for a kernel's test by kernel_test.h")
    return place


class Test:
    """A run of a kernel's test that fails at its length."""

    def __init__(self, run):
        self.run, self.program = run, run.program
        self.place = has_test(run, run.program)
        self.stop, self.ending = stops_at(run, set())[1]
        record = bytes_at(run, self.stop.step, [(self.place, 8 * len(Difference._fields))])
        self.difference = Difference(*struct.unpack(f"<{len(Difference._fields)}Q", record))

    def lines(self):
        if self.ending.startswith("trap"):
            return trap(self.run, set(self.program.functions))
        if not self.difference.kernel:
            return [f"at {self.run.vl} bits it ends by {self.ending} after {times(self.stop.step, 'step')}, and no "
                    "test by kernel_test.h has found a difference: svemu-diff without --test compares the lengths"]
        if self.difference.kernel not in self.program.functions:
            raise Failure(f"no symbol says that the kernel, at {self.difference.kernel:#x}, is a function: in assembly "
                          "`.type NAME, %function` does")
        name = self.program.functions[self.difference.kernel][0]
        told = f"at {self.run.vl} bits {self.said(name)}"
        frame, begin, end = self.call(name)
        inside = f", in {told_call(self.program, frame)}"
        return [told, *self.written(begin, end, inside), drawn_call(self.run, name, frame.number)]

    def said(self, name):
        """The test's own line."""
        done = self.run.ended("run", self.run.file, *self.run.limits(), "--vl", str(self.run.vl), *self.run.arguments,
                              given=self.run.input)
        lines = [line for line in done.stdout.decode(errors="replace").splitlines() if " parts: " in line]
        return next((line for line in lines if line.startswith(f"{name} ")), lines[0] if lines else f"{name} parts")

    def call(self, name):
        """The kernel's last call before the difference was kept, and its first and last step."""
        kept = last_writer(self.run, 0, self.stop.step, self.place)
        events = Calls(self.run, self.program, {self.difference.kernel}, True).events
        returns = [event for event in events if event.kind == "return" and event.step <= kept[0]]
        if not returns:
            raise Failure(f"no call of {name} has returned before the difference was found")
        frame = returns[-1].frame
        return frame, next(event.step for event in events if event.frame == frame), returns[-1].step

    def written(self, begin, end, inside):
        """Which step wrote what is wrong."""
        wrong = self.difference
        if wrong.answers:
            changed = last_change(self.run, begin, end)
            if not changed:
                return [f"nothing wrote x0{inside}"]
            return [f"x0 was last written in step {changed[0]}, {instruction(self.run, changed[1])}{inside}"]
        writer = last_writer(self.run, begin, end, wrong.at)
        if writer:
            return [f"it was written in {self.step(writer, wrong.at)}{inside}"]
        lines = [f"no step wrote it{inside}"]
        last = last_writer(self.run, begin, end, wrong.output, max(1, min(wrong.output_bytes, PAGE)))
        if last:
            lines.append(f"the last that wrote to the output is {self.step(last)}")
        else:
            branch = last_branch(self.run, begin, end)
            lines += [f"none wrote to the output; the last that chose a way is {self.step(branch)}"] if branch else []
        return lines

    def step(self, writer, address=None):
        step, pc = writer
        lane = lane_of(self.run, step, self.program.texts[pc], address) if address is not None else None
        lanes = f", lane {lane[0]} of its {lane[1]}" if lane else ""
        return f"step {step}, {instruction(self.run, pc)}{lanes}"
