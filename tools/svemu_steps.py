"""The steps of a run as `svemu-tool trace` tells them, the registers before a step, and where calls begin and end."""

import os
import re
import subprocess
import tempfile
from typing import NamedTuple

from svemu_calls import PROGRESS, times
from svemu_pages import ENDING, Failure

HEAD = re.compile(rb"(\d+) ([0-9a-f]{16}) [0-9a-f]{8} (.+)")
LAST = re.compile(rb"(?:step after \d+ steps at 0x[0-9a-f]{16}|" + ENDING + rb" after \d+ steps)")
TRAPPED = re.compile(r"trap [-a-z]+ 0x[0-9a-f]+ at 0x([0-9a-f]+) after (\d+) steps")

READ, WRITE = 63, 64
CALLS = ("bl ", "blr ")


class Step(NamedTuple):
    """A step: how many were counted before it, its instruction's address and text, the registers that it changed with
    their values, and the elements that it loaded and stored: load or store, address, bytes, value."""
    number: int
    address: int
    text: str
    changed: dict
    accesses: tuple


class Tracer:
    """The traces of a run."""

    def __init__(self, run):
        self.run, self.ending = run, ""

    def lines(self, *options):
        """The lines of a trace on steps. What the last line says of the end is kept."""
        run, self.ending = self.run, ""
        words = [run.tool, "trace", run.file, "--vl", str(run.vl), *run.limits(), *options, *run.arguments]
        with tempfile.TemporaryFile() as given, tempfile.TemporaryFile() as errors:
            given.write(run.input)
            given.seek(0)
            try:
                process = subprocess.Popen(words, stdin=given, stdout=subprocess.PIPE, stderr=errors)
            except (OSError, ValueError) as error:
                raise Failure(f"svemu-tool couldn't be called: {error}") from None
            with process:
                try:
                    for line in process.stdout:
                        if LAST.fullmatch(line.rstrip(b"\n")):
                            self.ending = line.decode().rstrip("\n")
                        else:
                            yield line
                except GeneratorExit:
                    process.kill()
                    raise
            if process.returncode != 0:
                errors.seek(0)
                raise refusal(run, process.returncode, errors.read())
        if not self.ending:
            raise Failure("what svemu-tool told couldn't be read")

    def steps(self, *options):
        """The steps of a trace."""
        for line in self.lines(*options):
            head, *items = line.rstrip(b"\n").split(b" | ")
            found = HEAD.fullmatch(head)
            if not found:
                raise Failure("what svemu-tool told couldn't be read")
            changed, accesses = {}, []
            for item in items:
                parts = item.decode().split(" ")
                if len(parts) == 2:
                    changed[parts[0]] = parts[1]
                else:
                    kind, address, size, value = parts
                    accesses.append((kind, int(address, 16), int(size), value))
            yield Step(int(found[1]), int(found[2], 16), found[3].decode(), changed, tuple(accesses))

    def first(self, *options):
        """The number of the first step of a trace, or None."""
        for step in self.steps(*options, "--steps", "1", "--show", "vl"):
            return step.number
        return None

    def state(self, number):
        """The registers before the step of this number, and what the program has written: its output and its errors."""
        run = self.run
        with tempfile.TemporaryDirectory(prefix="svemu-pages.") as folder:
            file = os.path.join(folder, "registers")
            words = ["run", "--vl", str(run.vl), *run.limits(number), "--quiet", "--registers", file]
            try:
                done = subprocess.run([run.tool, *words, run.file, *run.arguments[1:]], input=run.input,
                                      capture_output=True, check=False)
            except (OSError, ValueError) as error:
                raise Failure(f"svemu-tool couldn't be called: {error}") from None
            try:
                with open(file, encoding="ascii") as report:
                    lines = report.read().splitlines()[1:]
            except OSError:
                lines = []
        if not lines:
            raise refusal(run, done.returncode, done.stderr)
        return dict(line.split(" ")[:2] for line in lines), (done.stdout, done.stderr)


def refusal(run, status, said):
    """Why svemu-tool told nothing."""
    if re.search(rb"(trace is no command|registers is no option)[^\n]*\s*$", said):
        return Failure("this svemu-tool has no command trace: that of this tool's release or checkout has it")
    return run.failure(subprocess.CompletedProcess([], status, stderr=said), run.file)


class Call(NamedTuple):
    """A call of a function: the number of its first step, and of the first behind its return, None where there is none."""
    begin: int
    end: int


def call_of(run, image, name, number):
    """The call of a function with this number, from 1 on. A call is an arrival at its first instruction that isn't one
    of its own loops."""
    entries = [address for address, (known, _) in image.functions.items() if known == name]
    if not image.functions:
        raise Failure(f"{run.file} has no symbols of functions: build it without -s, and don't strip it")
    if not entries:
        raise Failure(f"no function is named {name}")
    PROGRESS.tell(f"looking for call {number} of {name} at {run.vl} bits")
    tracer, count, before = Tracer(run), 0, None
    for line in tracer.lines("--in", name, "--show", "vl"):
        found = HEAD.match(line)
        step, text = int(found[1]), found[3].decode()
        if int(found[2], 16) == min(entries) and (before is None or before[0] + 1 != step or before[1].startswith(CALLS)):
            count += 1
            if count == number:
                return Call(step, end_of_call(run, step))
        before = step, text
    raise Failure(f"at {run.vl} bits {name} is called {times(count, 'time')}, so there is no call {number}")


def end_of_call(run, begin):
    """The number of the first step behind the return of the call whose first step is this one: at the place to which it
    returns, with SP as at its entry."""
    tracer = Tracer(run)
    registers, _ = tracer.state(begin)
    back, sp = f"{int(registers['x30'], 16):#x}", registers["sp"]
    arrival = tracer.first("--after", str(begin + 1), "--from", back)
    if arrival is None or tracer.state(arrival)[0]["sp"] == sp:
        return arrival
    # A call within it returns to the same place first.
    now = sp
    for step in tracer.steps("--after", str(begin), "--show", "sp"):
        if step.number > begin and step.address == int(back, 16) and now == sp:
            return step.number
        now = step.changed.get("sp", now)
    return None


class Part:
    """Some steps of a run, the registers before the first of them, what each of them wrote, and how the run ended, where
    it did."""

    def __init__(self, run, begin, most):
        tracer = Tracer(run)
        PROGRESS.tell(f"the steps at {run.vl} bits")
        self.run, self.steps = run, list(tracer.steps("--after", str(begin), "--steps", str(most)))
        self.end = "" if tracer.ending.startswith("step ") else tracer.ending
        trapped = TRAPPED.fullmatch(self.end)
        if trapped and len(self.steps) < most and int(trapped[2]) >= begin:
            # The step that trapped has no line.
            at = int(trapped[1], 16)
            self.steps.append(Step(int(trapped[2]), at, text_at(run, at, self.steps), {}, ()))
        self.begin = begin
        self.registers, self.written = {}, ((), ())
        self.notes = {}
        if self.steps:
            self.registers, self.written = tracer.state(begin)
            self.notes = dict(self.system_calls(tracer))

    def system_calls(self, tracer):
        """What steps wrote and read by system calls."""
        services = [k for k, step in enumerate(self.steps) if step.text.startswith("svc")]
        outputs, now, at = None, dict(self.registers), 0
        streams = [len(text) for text in self.written]
        for k in services:
            for step in self.steps[at:k]:
                now.update(step.changed)
            at = k
            number, file = int(now["x8"], 16) & 0xFFFFFFFF, int(now["x0"], 16) & 0xFFFFFFFF
            answer = int(self.steps[k].changed.get("x0", now["x0"]), 16)
            if number == READ and answer < 2**63:
                yield k, f"reads {times(answer, 'byte')}"
            if number not in (WRITE, WRITE + 2) or file not in (1, 2) or answer >= 2**63:
                continue
            if outputs is None:
                outputs = tracer.state(self.steps[-1].number + 1)[1]
            begun = streams[file - 1]
            streams[file - 1] += answer
            yield k, shown(outputs[file - 1][begun:begun + answer], " to its errors" * (file == 2))

    def from_place(self, first, behind):
        """The part from one place in it to another."""
        some = object.__new__(Part)
        some.run, some.steps, some.begin = self.run, self.steps[first:behind], self.begin + first
        some.end = self.end if behind == len(self.steps) else ""
        some.registers = dict(self.registers)
        for step in self.steps[:first]:
            some.registers.update(step.changed)
        some.notes = {k - first: note for k, note in self.notes.items() if first <= k < behind}
        return some


def text_at(run, address, steps):
    """The text of the instruction at an address: of a step there, or of the file."""
    for step in steps:
        if step.address == address:
            return step.text
    try:
        return run.texts({address}).get(address, "")
    except Failure:
        return ""


def shown(text, where):
    """Bytes that a program wrote, in one line."""
    line = "".join(chr(byte) if 32 <= byte < 127 else "\\n" if byte == 10 else f"\\x{byte:02x}" for byte in text[:120])
    return f"writes {times(len(text), 'byte')}{where}: {line}{' ..' * (len(text) > 120)}"


def aligned(left, right):
    """Two lists beside one another, as pairs of places in them: a longest common subsequence, from the beginning on; a
    place alone has None beside it."""
    full, where = (1 << len(right)) - 1, {}
    for place, key in enumerate(reversed(right)):
        where[key] = where.get(key, 0) | 1 << place
    # Of the last k of left: a 0 among the low n bits for each that the last n of right have in common with them.
    ends = [full]
    for key in reversed(left):
        bits = ends[-1]
        both = bits & where.get(key, 0)
        ends.append((bits + both | bits - both) & full)

    def common(i, j):
        behind = len(right) - j
        return behind - bin(ends[len(left) - i] & (1 << behind) - 1).count("1")

    pairs, i, j = [], 0, 0
    while i < len(left) or j < len(right):
        if i < len(left) and j < len(right) and left[i] == right[j]:
            pairs.append((i, j))
            i, j = i + 1, j + 1
        elif j == len(right) or i < len(left) and common(i + 1, j) >= common(i, j + 1):
            pairs.append((i, None))
            i += 1
        else:
            pairs.append((None, j))
            j += 1
    return pairs


# Calls within calls are told apart so deep.
DEPTH = 200


class Body:
    """The steps of a function's call, without those of the calls within it: places in a list of steps, and such calls.
    `keys` has the address of each step, and the function and the number of each call."""

    def __init__(self):
        self.items, self.keys = [], []

    def add(self, item, key):
        self.items.append(item)
        self.keys.append(key)

    def places(self):
        """All places in order, with those of calls."""
        for item in self.items:
            if isinstance(item, Body):
                yield from item.places()
            else:
                yield item


def bodies(part):
    """The steps of a part by the calls in which they come."""
    sp, counts = part.registers["sp"], {}
    frames = [(Body(), None, None)]
    for place, step in enumerate(part.steps):
        while len(frames) > 1 and int(frames[-1][2], 16) < int(sp, 16):
            frames.pop()
        if len(frames) > 1 and (step.address, sp) == frames[-1][1:]:
            frames.pop()
        frames[-1][0].add(place, step.address)
        sp = step.changed.get("sp", sp)
        if step.text.startswith(CALLS) and place + 1 < len(part.steps) and len(frames) < DEPTH:
            function = part.steps[place + 1].address
            counts[function] = counts.get(function, 0) + 1
            inner = Body()
            frames[-1][0].add(inner, (function, counts[function]))
            frames.append((inner, step.address + 4, sp))
    return frames[0][0]


def beside(left, right):
    """The steps of two calls beside one another, as pairs of places: by the calls within them, which have to be of one
    function with one number, and there by address."""
    for i, j in aligned(left.keys, right.keys):
        one, other = None if i is None else left.items[i], None if j is None else right.items[j]
        if isinstance(one, Body) and isinstance(other, Body):
            yield from beside(one, other)
        elif isinstance(one, Body):
            yield from ((place, None) for place in one.places())
        elif isinstance(other, Body):
            yield from ((None, place) for place in other.places())
        else:
            yield one, other
